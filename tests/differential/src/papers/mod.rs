//! Papers and typed texts to compare the markers on.

pub mod blanks;
pub mod certificates;
pub mod damage;
pub mod extremes;
pub mod models;
pub mod pairs;
pub mod random;
pub mod runs;
pub mod scores;
pub mod sheet;
pub mod spellings;
pub mod texts;
pub mod turns;

pub use random::Random;
pub use sheet::Sheet;
