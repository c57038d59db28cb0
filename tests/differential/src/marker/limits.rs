//! The limits that a caller states (02, order 2).

use super::answer::{ARGUMENT, Refusal, Sheet};
use super::model::Model;

/// How many locations and joint switches a desk takes.
#[derive(Clone, Copy, Debug, PartialEq, Eq)]
pub struct Limits {
    pub locations: u32,
    pub joints: u32,
}

/// What the exam desk states, which is the most that any desk may.
pub const EXAM: Limits = Limits { locations: 64, joints: 4_096 };
/// What the practice desk states.
pub const PRACTICE: Limits = Limits { locations: 16, joints: 256 };

impl Limits {
    /// Each is at least 1 and at most the exam's.
    pub fn in_range(self) -> bool {
        (1..=EXAM.locations).contains(&self.locations) && (1..=EXAM.joints).contains(&self.joints)
    }
}

/// How every call on a model begins: the limits are tested before any sheet is read, then the model is read under them.
pub fn open_model(model: &[u8], limits: Limits) -> Result<Model, (Sheet, Refusal)> {
    if !limits.in_range() {
        return Err(ARGUMENT);
    }
    Model::read(model, limits).map_err(|refusal| (Sheet::Model, refusal))
}
