//! What one written lot, and one lot of a combination, must hold.

use crate::format::{Base, Contract, Kind, Right, Settings};

/// Money and prices in whole hao. The width leaves no room for overflow.
pub type Hao = i128;

/// The largest margin that a raise answers: 10^12 fen.
const CAP_FEN: Hao = 1_000_000_000_000;

#[derive(Clone, Copy, Debug, PartialEq, Eq)]
pub enum Strategy {
    BullCallSpread,
    BearCallSpread,
    BullPutSpread,
    BearPutSpread,
    ShortStraddle,
    ShortStrangle,
}

impl Strategy {
    pub const ALL: [Strategy; 6] = [
        Strategy::BullCallSpread,
        Strategy::BearCallSpread,
        Strategy::BullPutSpread,
        Strategy::BearPutSpread,
        Strategy::ShortStraddle,
        Strategy::ShortStrangle,
    ];

    pub fn numbered(number: u8) -> Option<Strategy> {
        Strategy::ALL
            .get(usize::from(number).checked_sub(1)?)
            .copied()
    }

    pub fn number(self) -> u8 {
        self as u8 + 1
    }

    /// Whether leg closes of this strategy stand in a permitted mask.
    pub fn permitted_by(self, mask: u8) -> bool {
        mask >> (self as u8) & 1 == 1
    }

    /// Whether the first leg is written, as the second always is.
    pub fn writes_first(self) -> bool {
        matches!(self, Strategy::ShortStraddle | Strategy::ShortStrangle)
    }

    /// Whether two contracts fit this strategy.
    pub fn fits(self, first: &Contract, second: &Contract) -> bool {
        use Right::{Call, Put};
        let rights = (first.right, second.right);
        let (k1, k2) = (first.strike, second.strike);
        let shape = match self {
            Strategy::BullCallSpread => rights == (Call, Call) && k2 > k1,
            Strategy::BearCallSpread => rights == (Call, Call) && k2 < k1,
            Strategy::BullPutSpread => rights == (Put, Put) && k2 > k1,
            Strategy::BearPutSpread => rights == (Put, Put) && k2 < k1,
            Strategy::ShortStraddle => rights == (Call, Put) && k2 == k1,
            Strategy::ShortStrangle => rights == (Call, Put) && k2 < k1,
        };
        shape
            && first.underlying == second.underlying
            && first.expiry == second.expiry
            && first.unit == second.unit
    }
}

/// The day's scale: a base and two raises, the second on the first.
#[derive(Clone, Copy, Debug)]
pub struct Scale {
    base: Base,
    raises: [u8; 2],
}

impl Scale {
    pub fn of(settings: &Settings) -> Scale {
        Scale {
            base: settings.scale,
            raises: [settings.first_raise, settings.second_raise],
        }
    }

    /// The margin of one written lot.
    pub fn leg(&self, contract: &Contract) -> Hao {
        self.raised(self.base_leg(contract))
    }

    /// The margin of one lot of a fitted pair.
    pub fn pair(&self, strategy: Strategy, first: &Contract, second: &Contract) -> Hao {
        let unit = Hao::from(first.unit);
        let (k1, k2) = (Hao::from(first.strike), Hao::from(second.strike));
        let raw = match strategy {
            Strategy::BullCallSpread | Strategy::BearPutSpread => 0,
            Strategy::BearCallSpread => (k1 - k2) * unit,
            Strategy::BullPutSpread => (k2 - k1) * unit,
            Strategy::ShortStraddle | Strategy::ShortStrangle => {
                let (one, two) = (self.base_leg(first), self.base_leg(second));
                let (p1, p2) = (Hao::from(first.settlement), Hao::from(second.settlement));
                let added = match one.cmp(&two) {
                    std::cmp::Ordering::Less => p1,
                    std::cmp::Ordering::Greater => p2,
                    std::cmp::Ordering::Equal => p1.max(p2),
                };
                one.max(two) + added * unit
            }
        };
        self.raised(whole_fen(raw))
    }

    fn base_leg(&self, contract: &Contract) -> Hao {
        match self.base {
            Base::Standard => standard_leg(contract),
            Base::Listed => 100 * Hao::from(contract.listed_margin),
        }
    }

    fn raised(&self, margin: Hao) -> Hao {
        self.raises
            .iter()
            .fold(margin, |margin, &percent| raise(margin, percent))
    }
}

/// The standard margin of one written lot.
pub fn standard_leg(contract: &Contract) -> Hao {
    let (a, b) = match (contract.kind, contract.right) {
        (Kind::Stock, Right::Call) => (21, 10),
        (Kind::Stock, Right::Put) => (19, 10),
        (Kind::Fund, _) => (12, 7),
    };
    let [s, k, p] = [contract.close, contract.strike, contract.settlement].map(Hao::from);
    // In hundredths of a hao, for one unit.
    let q = match contract.right {
        Right::Call => 100 * p + (a * s - 100 * (k - s).max(0)).max(b * s),
        Right::Put => (100 * p + (a * s - 100 * (s - k).max(0)).max(b * k)).min(100 * k),
    };
    100 * ((q * Hao::from(contract.unit) + 5_000) / 10_000)
}

/// Rounds half up to whole fen.
fn whole_fen(margin: Hao) -> Hao {
    100 * ((margin + 50) / 100)
}

/// Raises a margin of whole fen by a percentage.
pub fn raise(margin: Hao, percent: u8) -> Hao {
    let fen = margin / 100;
    100 * ((fen * (100 + Hao::from(percent)) + 50) / 100).min(CAP_FEN)
}

#[cfg(test)]
mod tests {
    use super::*;

    fn contract(right: Right, kind: Kind, [s, k, p, u]: [u32; 4]) -> Contract {
        Contract {
            code: 10_000_000,
            underlying: 1,
            expiry: 1,
            right,
            kind,
            unit: u,
            strike: k,
            settlement: p,
            close: s,
            listed_margin: 0,
        }
    }

    fn scale(base: Base, raises: [u8; 2]) -> Scale {
        Scale { base, raises }
    }

    #[test]
    fn worked_leg_margins() {
        use {Kind::*, Right::*};
        let leg = |right, kind, terms| standard_leg(&contract(right, kind, terms));
        assert_eq!(leg(Call, Fund, [40_000, 42_000, 500, 10_000]), 33_000_000);
        assert_eq!(leg(Put, Fund, [40_000, 38_000, 300, 10_000]), 31_000_000);
        assert_eq!(leg(Call, Fund, [10_000, 10_000, 50, 1]), 1_300);
        assert_eq!(leg(Call, Fund, [10_000, 10_000, 49, 1]), 1_200);
        assert_eq!(leg(Put, Stock, [10_000, 50_000, 45_000, 100]), 5_000_000);
    }

    #[test]
    fn worked_pair_margins() {
        use {Kind::*, Right::*};
        let standard = scale(Base::Standard, [0, 0]);
        let call = contract(Call, Fund, [40_000, 42_000, 500, 10_000]);
        let put = contract(Put, Fund, [40_000, 38_000, 300, 10_000]);
        assert!(Strategy::ShortStrangle.fits(&call, &put));
        assert_eq!(
            standard.pair(Strategy::ShortStrangle, &call, &put),
            36_000_000
        );

        let call = contract(Call, Fund, [10_000, 8_000, 2_000, 10_000]);
        let put = contract(Put, Fund, [10_000, 8_000, 2_640, 10_000]);
        assert!(Strategy::ShortStraddle.fits(&call, &put));
        assert_eq!(standard.leg(&call), 32_000_000);
        assert_eq!(standard.leg(&put), 32_000_000);
        assert_eq!(
            standard.pair(Strategy::ShortStraddle, &call, &put),
            58_400_000
        );
    }

    #[test]
    fn the_largest_standard_leg() {
        let top = contract(
            Right::Call,
            Kind::Stock,
            [10_000_000, 1, 10_000_000, 1_000_000],
        );
        assert_eq!(standard_leg(&top), 12_100_000_000_000);
    }

    #[test]
    fn raises_round_once_each_and_are_capped() {
        assert_eq!(raise(1_300, 4), 1_400);
        assert_eq!(raise(1_300, 0), 1_300);
        assert_eq!(raise(100 * CAP_FEN, 1), 100 * CAP_FEN);
        assert_eq!(raise(100 * (CAP_FEN / 2), 100), 100 * CAP_FEN);
        // 12 fen raised by 4 are 12.48, raised again 12: not 12 raised by 8.16.
        assert_eq!(scale(Base::Standard, [4, 4]).raised(1_200), 1_200);
    }

    #[test]
    fn a_raise_works_on_the_pair_margin_not_on_its_legs() {
        use {Kind::*, Right::*};
        let call = contract(Call, Fund, [40_000, 42_000, 500, 10_000]);
        let put = contract(Put, Fund, [40_000, 38_000, 300, 10_000]);
        let raised = scale(Base::Standard, [50, 0]);
        assert_eq!(
            raised.pair(Strategy::ShortStrangle, &call, &put),
            54_000_000
        );
    }
}
