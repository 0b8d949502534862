//! Counts what two lists met as far as they were compared for a common task, and what parted them.
use super::{End, Pair, Stretch, Tick};
use crate::harness::boundary::NODE_COUNT;
use crate::harness::counts::Counts;
use crate::reference::answers::{Cause, Reply};

/// The refusals of Release and Tick on a sound state, and those of them that name a task.
const REFUSALS: [Cause; 5] = [Cause::NoSuchTask, Cause::NotKept, Cause::NotDue, Cause::ReportCount, Cause::NotRunning];
const OF_A_TASK: [Cause; 3] = [Cause::NotKept, Cause::NotDue, Cause::NotRunning];

impl Stretch {
    fn refuses(&self, cause: Cause) -> bool {
        self.refusals.iter().any(|reply| reply.number() == cause as usize)
    }

    fn refuses_of(&self, cause: Cause, task: usize) -> bool {
        self.refusals.contains(&Reply::Refused(cause as u8, task as u8))
    }
}

impl Pair<'_> {
    /// Counts the two lists, which were compared up to this tick.
    pub(super) fn count(&self, last: usize, end: End, counts: &mut Counts) {
        counts.add("pairs");
        for s in 0..last {
            let (Some(both), Some(next)) = (self.stretches(s), self.stretches(s + 1)) else { continue };
            if let [Some(one), Some(other)] = both.map(|stretch| stretch.tick.as_ref()) {
                self.count_tick([one, other], next, counts);
            }
            self.count_refusals(both, counts);
        }
        let [one, other] =
            self.runs.map(|run| run.stretches[..last].iter().map(|stretch| stretch.calls).sum::<usize>());
        if one != other {
            counts.add("pairs with other numbers of calls");
        }
        self.count_end(last, end, counts);
    }

    /// Counts what a tick of both lists did to the standing states and to the task's job.
    fn count_tick(&self, [one, other]: [&Tick; 2], next: [&Stretch; 2], counts: &mut Counts) {
        counts.add("ticks");
        let (before, after) = (&one.before[self.i], &next[0].after[self.i]);
        let (was_alive, is_alive) = (before.alive == 1, after.alive == 1);
        let has_ended = after.ended == u32::MAX >> (32 - self.runs[0].entry(self.i)[NODE_COUNT]);
        match [one.reply, other.reply] {
            [Reply::Switched(task), Reply::Switched(of_other)] => {
                counts.add("switches");
                if !self.are_common([task, of_other].map(usize::from)) {
                    counts.add("switches by other tasks");
                }
                if was_alive && !is_alive && !has_ended {
                    counts.add("jobs dropped by a switch");
                }
                if is_alive {
                    counts.add("jobs alive over a switch");
                }
            }
            [Reply::Returned, Reply::Returned] => {
                counts.add("returns");
                if is_alive {
                    counts.add("jobs alive over a return");
                }
            }
            _ => {}
        }
        if was_alive && has_ended {
            counts.add("jobs that ended");
        }
    }

    /// Whether these numbers are those of a common task.
    fn are_common(&self, [task, of_other]: [usize; 2]) -> bool {
        let [one, other] = self.runs.map(|run| run.common);
        one.iter().zip(other).any(|pair| pair == (&task, &of_other))
    }

    /// Counts the refusals of one list that the other has not in the same stretch.
    fn count_refusals(&self, [one, other]: [&Stretch; 2], counts: &mut Counts) {
        for cause in REFUSALS {
            if one.refuses(cause) != other.refuses(cause) {
                counts.add(format!("{} in one list alone", cause as u8));
            }
        }
        let [task, of_other] = self.runs.map(|run| run.common[self.i]);
        for cause in OF_A_TASK {
            if one.refuses_of(cause, task) != other.refuses_of(cause, of_other) {
                counts.add(format!("{} of the task in one list alone", cause as u8));
            }
        }
    }

    /// Counts a pair by what parted it, and whether other nodes of the task run then.
    fn count_end(&self, last: usize, end: End, counts: &mut Counts) {
        let Some([one, other]) = self.stretches(last + 1) else { return };
        let name = match end {
            End::List => return,
            End::Conduct => "pairs parted by releases or reports",
            End::Modes => "pairs parted by the modes",
        };
        counts.add(name);
        if one.after[self.i].running != other.after[self.i].running {
            counts.add(format!("{name} that then run other nodes"));
        }
    }
}
