//! Blanks (02, order 6): from version 2 on, a variable that the rows of its owner do not mention keeps its value.

use super::joint::{JointSwitch, STAYS};
use super::model::{Location, Model};
use super::reader::Condition;
use std::ops::Range;

/// The first version in which a blank means "does not change".
const FIRST_VERSION: u8 = 2;

/// A set of variables: bit v for variable v.
pub type Variables = u8;

/// The variables that no row mentions, whoever owns them; none in version 1. `places` has their places among the coefficients.
pub fn blanks(version: u8, rows: &Condition, places: Range<usize>) -> Variables {
    if version < FIRST_VERSION {
        return 0;
    }
    let blank = |place: usize| rows.rows().all(|row| row.coefficients[place] == 0);
    places.enumerate().map(|(variable, place)| Variables::from(blank(place)) << variable).sum()
}

/// The variables that keep their value in a flow: those that are blank in their owner's present mode.
pub fn kept_in_flow(model: &Model, location: &Location) -> Variables {
    let owners = model.components.iter().zip(model.modes(location));
    owners.fold(0, |kept, (component, mode)| kept | component.own & mode.blanks)
}

/// The variables that keep their value in a jump: those whose owner stays, and those that are blank in its switch.
pub fn kept_in_jump(model: &Model, joint: &JointSwitch) -> Variables {
    model.components.iter().zip(joint.switches).fold(0, |kept, (component, number)| match number {
        STAYS => kept | component.own,
        _ => kept | component.own & component.switches[usize::from(number)].blanks,
    })
}

/// The variables of a set.
pub fn ascending(mut set: Variables) -> impl Iterator<Item = usize> {
    std::iter::from_fn(move || {
        let variable = set.trailing_zeros() as usize;
        set &= set.checked_sub(1)?;
        Some(variable)
    })
}
