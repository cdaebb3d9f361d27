//! Events, request R-8 of document 02: "A loaded place takes four events at a grade, each by an
//! entry point of its own: a survivor enters, a survivor leaves, a survivor defaults, a defaulted
//! firm is removed." Nothing is kept beside the counts: whoever asks for blocks pools anew.

use crate::table::{Refusal, Table, MAX_OBLIGORS};

#[derive(Clone, Copy, Debug, PartialEq, Eq, PartialOrd, Ord)]
pub enum Event {
    SurvivorEnters,
    SurvivorLeaves,
    SurvivorDefaults,
    DefaultedRemoved,
}

use Event::*;

pub const EVERY_EVENT: [Event; 4] = [
    SurvivorEnters,
    SurvivorLeaves,
    SurvivorDefaults,
    DefaultedRemoved,
];

impl Event {
    pub fn name(self) -> &'static str {
        match self {
            SurvivorEnters => "survivor_enters",
            SurvivorLeaves => "survivor_leaves",
            SurvivorDefaults => "survivor_defaults",
            DefaultedRemoved => "defaulted_removed",
        }
    }

    /// The survivors and the defaulted firms of a grade after the event; none if there is no such
    /// firm.
    fn firms_after(self, survivors: u64, defaulted: u64) -> Option<(u64, u64)> {
        match self {
            SurvivorEnters => Some((survivors + 1, defaulted)),
            SurvivorLeaves => Some((survivors.checked_sub(1)?, defaulted)),
            SurvivorDefaults => Some((survivors.checked_sub(1)?, defaulted + 1)),
            DefaultedRemoved => Some((survivors, defaulted.checked_sub(1)?)),
        }
    }
}

/// The table after an event at a grade, counted from 1: 36, 37, 38. No event but a leaving or
/// removal can be the one after which nobody is left, and none but an entry makes one too many.
pub fn after(table: &Table, event: Event, grade: u32) -> Result<Table, Refusal> {
    if grade < 1 || grade as usize > table.grades.len() {
        return Err(36);
    }
    let mut after = table.clone();
    let changed = &mut after.grades[grade as usize - 1];
    let firms = event.firms_after(changed.survivors(), changed.defaults);
    let (survivors, defaulted) = firms.ok_or(37u32)?;
    (changed.obligors, changed.defaults) = (survivors + defaulted, defaulted);
    match after.obligors() {
        0 => Err(37),
        obligors if obligors > MAX_OBLIGORS => Err(38),
        _ => Ok(after),
    }
}
