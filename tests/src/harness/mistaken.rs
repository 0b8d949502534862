//! Dispatchers that are right but for one mistake, by which a task's runs tell something of its neighbours.
use crate::harness::boundary::{of_words, to_words, Dispatcher, Independent};
use crate::reference::answers::Reply;
use crate::reference::dispatcher::{Entry, Mode, State};

#[derive(Clone, Copy, Debug, PartialEq, Eq)]
pub enum Mistake {
    /// Each block begins and ends at an even processor.
    EvenBlocks,
    /// A task has the next one's processors too while that one has no job.
    LentProcessors,
    /// A task's report is taken for the one before it.
    NextReport,
    /// A switch leaves the job of a low task that is not kept where the next task is high.
    LeftBeforeHigh,
    /// A switch drops the job of a kept task where the next task's job is dropped.
    DroppedTogether,
    /// A release sets the next task's age to 0 too.
    NextAge,
    /// A refused tick counts for the ages.
    RefusedTick,
}

pub const MISTAKES: [Mistake; 7] = [
    Mistake::EvenBlocks,
    Mistake::LentProcessors,
    Mistake::NextReport,
    Mistake::LeftBeforeHigh,
    Mistake::DroppedTogether,
    Mistake::NextAge,
    Mistake::RefusedTick,
];

impl Mistake {
    /// Whether it does nothing where nothing switches.
    pub fn is_of_switch(self) -> bool {
        matches!(self, Mistake::LeftBeforeHigh | Mistake::DroppedTogether)
    }
}

/// The dispatcher with this mistake.
pub struct Mistaken(pub Mistake);

impl Dispatcher for Mistaken {
    fn release(&self, line: &[u32], task: usize) -> (Reply, Vec<u32>) {
        let (reply, next) = Independent.release(line, task);
        let mut after = state_in(&next);
        if self.0 == Mistake::NextAge && reply == Reply::Done {
            after.entries.iter_mut().skip(task + 1).take(1).for_each(|entry| entry.age = 0);
        }
        (reply, to_words(&after))
    }

    fn tick(&self, line: &[u32], reports: &[u32]) -> (Reply, Vec<u32>) {
        let before = state_in(line);
        let (reply, next) = Independent.tick(&self.shared(line), &self.taken(&before, reports));
        let mut after = state_in(&next);
        for (entry, was) in after.entries.iter_mut().zip(&before.entries) {
            (entry.typical, entry.critical) = (was.typical, was.critical);
        }
        match reply {
            Reply::Switched(_) => self.switch(&before, &mut after),
            Reply::Refused(..) if self.0 == Mistake::RefusedTick => after.entries.iter_mut().for_each(grow_older),
            _ => {}
        }
        (reply, to_words(&after))
    }

    fn board(&self, line: &[u32], buffer: &mut [u8]) -> Reply {
        Independent.board(&self.shared(line), buffer)
    }
}

impl Mistaken {
    /// The line with the shares by which it runs.
    fn shared(&self, line: &[u32]) -> Vec<u32> {
        let mut state = state_in(line);
        match self.0 {
            Mistake::EvenBlocks => make_even(&mut state),
            Mistake::LentProcessors => lend(&mut state),
            _ => return line.to_vec(),
        }
        to_words(&state)
    }

    /// The reports that it takes.
    fn taken(&self, state: &State, reports: &[u32]) -> Vec<u32> {
        if self.0 != Mistake::NextReport || state.tick(reports).is_err() {
            return reports.to_vec();
        }
        let running = |task: usize| state.running(task).into_iter().map(|v| 1 << v).sum::<u32>();
        (0..reports.len()).map(|task| reports[(task + 1) % reports.len()] & running(task)).collect()
    }

    /// What its switch does to low jobs beside what is right.
    fn switch(&self, before: &State, after: &mut State) {
        let is_dropped = |task: usize| before.entries[task].alive && !before.entries[task].stays();
        for task in 1..usize::from(before.count) {
            let (last, next) = (&mut after.entries[task - 1], &before.entries[task]);
            match self.0 {
                Mistake::LeftBeforeHigh if is_dropped(task - 1) && next.is_high() => last.alive = !last.all_ended(),
                Mistake::DroppedTogether if last.is_kept() && is_dropped(task) => last.alive = false,
                _ => {}
            }
        }
    }
}

fn make_even(state: &mut State) {
    let mut end = 0;
    for entry in &mut state.entries[..usize::from(state.count)] {
        let (start, share) = (end, share(entry, state.mode));
        end += *share;
        *share = end / 2 * 2 - start / 2 * 2;
    }
}

/// Gives the processors of each task that has no job to the one before it.
fn lend(state: &mut State) {
    for task in (1..usize::from(state.count)).rev() {
        if !state.entries[task].alive {
            let lent = std::mem::take(share(&mut state.entries[task], state.mode));
            *share(&mut state.entries[task - 1], state.mode) += lent;
        }
    }
}

fn state_in(line: &[u32]) -> State {
    of_words(line).expect("lists are run on states")
}

fn share(entry: &mut Entry, mode: Mode) -> &mut u8 {
    match mode {
        Mode::Typical => &mut entry.typical,
        Mode::Critical => &mut entry.critical,
    }
}

fn grow_older(entry: &mut Entry) {
    entry.age = entry.deadline.min(entry.age + 1);
}
