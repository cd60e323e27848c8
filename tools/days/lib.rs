//! Day files for tests: drawn from seeds, written by hand, and measured.

pub mod bench;
pub mod coverage;
pub mod desk;
pub mod flaws;
pub mod layout;
pub mod listing;
pub mod need;
pub mod profiles;
pub mod rng;
pub mod scenario;
pub mod states;
pub mod vectors;

pub use profiles::make;
pub use reference;
