//! The marker of document 01, and what document 02 adds, written from these documents alone.
//!
//! The modules follow the sections of 01: `reader` (Sheet), `model`, `joint` (joint switches), `farkas` (rows and proofs), `certificate`,
//! `run` and `beside`; and the orders of 02: `typed` (order 1), `limits` (order 2), `fair` (order 4), `blanks` (order 6) and `pairs`
//! (order 7). Scores are rounded in `certificate` (order 5). Every public call takes bytes and gives the five numbers of "What is handed
//! back"; one that reads a model takes the caller's limits last.

pub mod answer;
pub mod beside;
pub mod blanks;
pub mod certificate;
pub mod fair;
pub mod farkas;
pub mod joint;
pub mod limits;
pub mod model;
pub mod pairs;
pub mod reader;
pub mod run;
pub mod typed;

pub use answer::{Answer, Fault, Refusal};
pub use beside::{HypothesisRow, Which, hypothesis, joint_list, show_row, which};
pub use certificate::mark_certificate;
pub use fair::fair_copy;
pub use joint::JointSwitch;
pub use limits::{EXAM, Limits, PRACTICE};
pub use model::Model;
pub use run::mark_run;
pub use typed::{TypedRow, read_row};
