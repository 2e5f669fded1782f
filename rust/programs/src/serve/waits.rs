//! Waits of rolls, and what is due of them.

use std::fmt::Write as _;

use zermuita::{Due, Phase, Roll, Zone};

use super::keeper::{Done, Keeper};
use super::lines;
use super::moments::boot_seconds;
use super::turns::Changing;
use super::worker::Worker;

/// A wait that was seen: the second from which the zone accepts its end, and that of the clock that nobody sets.
#[derive(Clone, Copy, PartialEq, Eq)]
struct Seen {
    phase: Phase,
    from: u64,
    until: u64,
}

/// The waits that were seen, by rolls.
#[derive(Default)]
pub struct Pending([Option<Seen>; Roll::ALL.len()]);

impl Pending {
    /// Whether a wait is over by both clocks: by the one that tells moments, and by one that nobody sets, which must have passed what was
    /// left of the wait when it was seen first. So a wall clock that jumps ahead, as one does that was a day behind, ends no wait.
    fn is_over(&mut self, at: usize, phase: Phase, from: u64, moment: u64, boot: u64) -> bool {
        let seen = match self.0[at].filter(|it| (it.phase, it.from) == (phase, from)) {
            Some(seen) => seen,
            None => Seen { phase, from, until: boot + from.saturating_sub(moment) },
        };
        self.0[at] = Some(seen);
        from <= moment && seen.until <= boot
    }
}

/// The step that a phase waits for.
pub fn step(phase: Phase) -> &'static str {
    match phase {
        Phase::None => "",
        Phase::Propagation1 => "report1",
        Phase::Expiry1 => "wait1",
        Phase::Propagation2 => "report2",
        Phase::Expiry2 => "wait2",
        Phase::Rolled => "done",
    }
}

/// What is due of a roll that runs.
fn due_of(zone: &mut Zone, roll: Roll) -> Option<Due> {
    zone.due(roll).ok().filter(|it| it.phase != Phase::None)
}

/// What is due of each roll that runs.
pub fn say_due(zone: &mut Zone, clock: u64) -> String {
    let mut said = String::new();
    for roll in Roll::ALL {
        let due = match due_of(zone, *roll) {
            Some(due) => due,
            None => continue,
        };
        let _ = write!(said, "{roll}: {} is next", step(due.phase));
        if let Some(from) = due.from {
            let _ = write!(said, " from {from} on, {}", if from <= clock { "now" } else { "not yet" });
        }
        if !due.actions.is_empty() {
            let _ = write!(said, "; {} ", due.actions.join(" "));
        }
        said.push('\n');
    }
    said
}

/// Accepts the wait of a roll, if it is over by the clock: where replacements come fast, lines are of moments ahead of that.
pub fn accept(keeper: &mut Keeper, worker: &mut Worker, turn: &mut Changing<'_>, words: &[u8]) -> Done {
    let clock = keeper.shared.moments.clock();
    let text = String::from_utf8_lossy(words).into_owned();
    let mut parts = text.split(' ');
    let (word, roll) = (parts.next().unwrap_or(""), parts.next().and_then(|it| it.parse::<Roll>().ok()));
    let due = roll.and_then(|it| due_of(&mut worker.copy.zone, it)).filter(|it| step(it.phase) == word);
    match due.and_then(|it| it.from).filter(|from| *from > clock) {
        Some(from) => Err(format!("refused Wait {}\n", from - clock)),
        None => lines::accept(keeper, worker, turn, words),
    }
}

/// Makes the waits that are over. False where one of them is not made.
pub fn end(keeper: &mut Keeper, worker: &mut Worker, turn: &mut Changing<'_>) -> bool {
    let mut are_done = true;
    for (at, roll) in Roll::ALL.iter().enumerate() {
        let (phase, from) = match due_of(&mut worker.copy.zone, *roll) {
            Some(Due { phase: phase @ (Phase::Expiry1 | Phase::Expiry2), from: Some(from), .. }) => (phase, from),
            _ => continue,
        };
        if keeper.pending.is_over(at, phase, from, keeper.shared.moments.clock(), boot_seconds()) {
            let words = format!("{} {roll}", step(phase));
            let done = lines::accept(keeper, worker, turn, words.as_bytes());
            keeper.log_said("wait", words.as_bytes(), &done);
            are_done &= done.is_ok();
        }
    }
    are_done
}

#[cfg(test)]
mod tests {
    use super::*;

    #[test]
    fn waits_end_by_both_clocks() {
        let mut pending = Pending::default();
        let mut is_over = |from, moment, boot| pending.is_over(0, Phase::Expiry1, from, moment, boot);
        assert!(!is_over(100, 90, 5));
        // The wall clock jumps ahead: ten seconds have to pass.
        assert!(!is_over(100, 5000, 6) && !is_over(100, 5000, 14) && is_over(100, 5000, 15));
        // Another wait, which was over when it was seen.
        assert!(is_over(4000, 5000, 15));
        // The other clock alone ends none.
        assert!(!is_over(6000, 5000, 20) && !is_over(6000, 5999, 2000) && is_over(6000, 6000, 2000));
    }
}
