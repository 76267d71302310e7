//! What tells which conditions hold now.

use std::collections::{BTreeMap, BTreeSet};

use crate::refusal::{refuse_when, Refusal};
use crate::tables::Number;

const LAST_CONDITION: Number = 31;
const LAST_MINUTE: Number = 10_079;
const END_OF_WEEK: Number = 10_080;

/// The set of conditions that hold now.
pub trait ConditionSource {
    fn holds(&self, condition: Number) -> bool;
}

/// A condition set given outright; numbers above 31 never hold.
impl ConditionSource for BTreeSet<Number> {
    fn holds(&self, condition: Number) -> bool {
        condition <= LAST_CONDITION && self.contains(&condition)
    }
}

/// One bit for each condition, all false at first.
#[derive(Clone, Debug, Default)]
pub struct SensorBoard {
    set: BTreeSet<Number>,
}

impl SensorBoard {
    pub fn report(&mut self, condition: Number, holds: bool) -> Result<(), Refusal> {
        refuse_when(condition > LAST_CONDITION, Refusal::NoSuchNumber)?;
        if holds {
            self.set.insert(condition);
        } else {
            self.set.remove(&condition);
        }
        Ok(())
    }
}

impl ConditionSource for SensorBoard {
    fn holds(&self, condition: Number) -> bool {
        self.set.contains(&condition)
    }
}

/// The minutes of the week in which a condition holds.
#[derive(Clone, Copy, Debug, Default)]
struct Window {
    from: Number,
    to: Number,
}

impl Window {
    fn has(self, minute: Number) -> bool {
        if self.from < self.to {
            self.from <= minute && minute < self.to
        } else if self.from > self.to {
            self.from <= minute || minute < self.to
        } else {
            false
        }
    }
}

/// A minute of the week, and a window for each condition.
#[derive(Clone, Debug, Default)]
pub struct WeekClock {
    minute: Number,
    windows: BTreeMap<Number, Window>,
}

impl WeekClock {
    pub fn set_minute(&mut self, minute: Number) -> Result<(), Refusal> {
        refuse_when(minute > LAST_MINUTE, Refusal::NoSuchNumber)?;
        self.minute = minute;
        Ok(())
    }

    pub fn set_window(
        &mut self,
        condition: Number,
        from: Number,
        to: Number,
    ) -> Result<(), Refusal> {
        let outside = condition > LAST_CONDITION || from > LAST_MINUTE || to > END_OF_WEEK;
        refuse_when(outside, Refusal::NoSuchNumber)?;
        self.windows.insert(condition, Window { from, to });
        Ok(())
    }
}

impl ConditionSource for WeekClock {
    fn holds(&self, condition: Number) -> bool {
        self.windows.get(&condition).is_some_and(|window| window.has(self.minute))
    }
}

/// Conditions below the cut are those of the first source, the rest those of the second.
pub struct Joined<'a> {
    pub cut: Number,
    pub first: &'a dyn ConditionSource,
    pub second: &'a dyn ConditionSource,
}

impl ConditionSource for Joined<'_> {
    fn holds(&self, condition: Number) -> bool {
        if condition < self.cut {
            self.first.holds(condition)
        } else {
            self.second.holds(condition)
        }
    }
}

#[cfg(test)]
mod tests {
    use super::*;

    fn held_minutes(from: Number, to: Number, minutes: &[Number]) -> Vec<Number> {
        let mut clock = WeekClock::default();
        clock.set_window(20, from, to).expect("in range");
        let holds_at = |&minute: &Number| {
            clock.set_minute(minute).expect("in range");
            clock.holds(20)
        };
        minutes.iter().copied().filter(holds_at).collect()
    }

    #[test]
    fn a_window_has_its_first_minute_and_not_its_last() {
        let minutes = [0, 59, 60, 119, 120, 10_079];
        assert_eq!(held_minutes(60, 120, &minutes), [60, 119]);
        assert_eq!(held_minutes(120, 60, &minutes), [0, 59, 120, 10_079]);
        assert_eq!(held_minutes(60, 60, &minutes), []);
        assert_eq!(held_minutes(0, 10_080, &minutes), minutes);
        assert_eq!(held_minutes(10_079, 0, &minutes), [10_079]);
    }

    #[test]
    fn numbers_out_of_range_are_refused() {
        let mut board = SensorBoard::default();
        let mut clock = WeekClock::default();
        assert_eq!(board.report(31, true), Ok(()));
        assert_eq!(board.report(32, true), Err(Refusal::NoSuchNumber));
        assert_eq!(clock.set_minute(10_079), Ok(()));
        assert_eq!(clock.set_minute(10_080), Err(Refusal::NoSuchNumber));
        assert_eq!(clock.set_window(31, 10_079, 10_080), Ok(()));
        assert_eq!(clock.set_window(32, 0, 0), Err(Refusal::NoSuchNumber));
        assert_eq!(clock.set_window(0, 10_080, 0), Err(Refusal::NoSuchNumber));
        assert_eq!(clock.set_window(0, 0, 10_081), Err(Refusal::NoSuchNumber));
        assert!(clock.holds(31));
    }

    #[test]
    fn a_joined_source_is_parted_by_its_cut() {
        let first = BTreeSet::from([1, 16]);
        let second = BTreeSet::from([2, 17, 32]);
        let joined = Joined { cut: 16, first: &first, second: &second };
        let held: Vec<Number> = (0..40).filter(|&condition| joined.holds(condition)).collect();
        assert_eq!(held, [1, 17]);
    }
}
