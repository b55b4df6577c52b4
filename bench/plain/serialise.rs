//! Rewrites a schedule so that no atomic call is interrupted.

use crate::machine::{Kind, Machine, Stop};
use std::iter;

/// An outermost atomic call, or a single step outside such calls.
struct Unit {
    thread: u32,
    /// How many entries it has.
    len: usize,
    /// The place at which it can be thought to happen: of its first Left or Other step, else of its last.
    commit: usize,
    is_committed: bool,
}

impl Unit {
    fn step(&mut self, place: usize, kind: Kind) {
        self.len += 1;
        if !self.is_committed {
            self.commit = place;
            self.is_committed = matches!(kind, Kind::Left | Kind::Other);
        }
    }
}

/// The units of a schedule in the order of their first entries, and the last one of each thread. The machine ends in the
/// schedule's state. Else the first entry that can't step, from 0, and why.
fn units(machine: &mut Machine<'_>, schedule: &[u32]) -> Result<(Vec<Unit>, Vec<usize>), (usize, Stop)> {
    let mut units: Vec<Unit> = Vec::new();
    let mut last: Vec<usize> = Vec::new();
    for (place, &thread) in schedule.iter().enumerate() {
        let was_inside = machine.inside(thread);
        let kind = machine.step(thread).map_err(|stop| (place, stop))?;
        if !was_inside {
            if last.len() <= thread as usize {
                last.resize(thread as usize + 1, 0);
            }
            last[thread as usize] = units.len();
            units.push(Unit {
                thread,
                len: 0,
                commit: place,
                is_committed: false,
            });
        }
        units[last[thread as usize]].step(place, kind);
    }
    Ok((units, last))
}

/// The threads of some units, in the order of their commit places, of a schedule of this length.
fn by_commit<'a>(units: impl Iterator<Item = &'a Unit>, len: usize) -> Vec<u32> {
    // Each place is the commit place of one unit at most.
    let mut places: Vec<Option<&Unit>> = vec![None; len];
    for unit in units {
        places[unit.commit] = Some(unit);
    }
    places
        .into_iter()
        .flatten()
        .flat_map(|unit| iter::repeat_n(unit.thread, unit.len))
        .collect()
}

/// The units in the order of their commit places.
pub fn serialise(machine: &mut Machine<'_>, schedule: &[u32]) -> Result<Vec<u32>, (usize, Stop)> {
    let (units, _) = units(machine, schedule)?;
    Ok(by_commit(units.iter(), schedule.len()))
}

/// The units that commit in the order of their commit places, then the calls that are left open before their first Left or
/// Other step, in the order of their threads.
pub fn serialise_open(machine: &mut Machine<'_>, schedule: &[u32]) -> Result<Vec<u32>, (usize, Stop)> {
    let (mut units, last) = units(machine, schedule)?;
    let mut left = Vec::new();
    for (thread, &unit) in last.iter().enumerate() {
        if machine.inside(thread as u32) && !units[unit].is_committed {
            left.push((thread as u32, units[unit].len));
            units[unit].len = 0;
        }
    }
    let mut order = by_commit(units.iter(), schedule.len());
    order.extend(left.into_iter().flat_map(|(thread, len)| iter::repeat_n(thread, len)));
    Ok(order)
}
