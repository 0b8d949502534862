//! Calls on the proved dispatcher and on the independent one, compared one by one, and random calls to compare them on.
use crate::harness::boundary::{of_words, to_words, Dispatcher, Independent};
use crate::harness::counts::{hold, Counts};
use crate::harness::proved::dispatching::Proved;
use crate::makers::random::Random;
use crate::makers::states::{not_running, report};
use crate::reference::answers::Reply;
use crate::reference::dispatcher::{Mode, State};

/// Compares the two dispatchers call by call, and counts the answers.
pub struct Comparison {
    pub counts: Counts,
}

impl Comparison {
    pub fn new(test: &'static str) -> Comparison {
        Comparison { counts: Counts::new(test) }
    }

    pub fn release(&mut self, line: &[u32], task: usize) -> (Reply, Vec<u32>) {
        let on = || format!("Release({task}) of {:?}", of_words(line));
        let step = Proved.release(line, task);
        hold(&step, &Independent.release(line, task), on);
        if step.0 == Reply::Done && low_when_critical(line).contains(&task) {
            self.counts.add("kept tasks released when critical");
        }
        self.count("released", line, step)
    }

    pub fn tick(&mut self, line: &[u32], reports: &[u32]) -> (Reply, Vec<u32>) {
        let on = || format!("Tick({reports:?}) of {:?}", of_words(line));
        let step = Proved.tick(line, reports);
        hold(&step, &Independent.tick(line, reports), on);
        match step.0 {
            Reply::Switched(_) => self.count_switch(line, &step.1),
            Reply::Returned => self.count_return(line, &step.1),
            _ => {}
        }
        self.count("ran", line, step)
    }

    pub fn board(&mut self, line: &[u32], before: &[u8]) -> Reply {
        let on = || format!("Board with {} bytes of {:?}", before.len(), of_words(line));
        let (mut buffer, mut expected) = (before.to_vec(), before.to_vec());
        let proved = Proved.board(line, &mut buffer);
        let reply = Independent.board(line, &mut expected);
        hold(&(proved, &buffer), &(reply, &expected), on);
        assert!(reply.number() == 0 || buffer == before);
        let shows = |task: usize| buffer.chunks_exact(2).any(|pair| usize::from(pair[0]) == task);
        if reply == Reply::Done && low_when_critical(line).into_iter().any(shows) {
            self.counts.add("boards with a kept task's nodes");
        }
        self.count("board", line, (reply, line.to_vec())).0
    }

    /// Counts what a switch did to the alive jobs of low tasks.
    fn count_switch(&mut self, before: &[u32], after: &[u32]) {
        let [before, after] = [before, after].map(state_in);
        for task in (0..usize::from(before.count)).filter(|&task| before.entries[task].alive) {
            let entry = &after.entries[task];
            let same = entry.critical == entry.typical;
            match (entry.is_high(), entry.alive) {
                (true, _) => {}
                (_, true) if same => self.counts.add("jobs kept over a switch on as many processors"),
                (_, true) => self.counts.add("jobs kept over a switch on more or fewer"),
                (_, false) if entry.all_ended() => self.counts.add("low jobs that ended with a switch"),
                (_, false) => self.counts.add("jobs dropped by a switch"),
            }
        }
    }

    /// Counts the high jobs whose end a return came with, and the low jobs that were alive with it.
    fn count_return(&mut self, before: &[u32], after: &[u32]) {
        let [before, after] = [before, after].map(state_in);
        self.counts.add(match before.high_jobs()[..] {
            [] => "returns with no high job before",
            [_] => "returns with the end of a high job",
            _ => "returns with the end of several high jobs",
        });
        for task in (0..usize::from(before.count)).filter(|&task| before.entries[task].alive) {
            let entry = &after.entries[task];
            match (entry.is_high(), entry.alive, entry.is_kept()) {
                (true, ..) => {}
                (_, true, true) => self.counts.add("kept jobs alive over a return"),
                (_, true, false) => self.counts.add("other low jobs alive over a return"),
                (_, false, _) => self.counts.add("low jobs that ended with a return"),
            }
        }
    }

    fn count(&mut self, done: &str, before: &[u32], (reply, after): (Reply, Vec<u32>)) -> (Reply, Vec<u32>) {
        match reply {
            Reply::Done => self.counts.add(done),
            Reply::Switched(_) => self.counts.add("switched"),
            Reply::Returned => self.counts.add("returned"),
            Reply::Refused(number, _) => {
                assert!(before == after, "a refused call changed the line {before:?}");
                self.counts.add(number);
            }
        }
        (reply, after)
    }
}

fn state_in(line: &[u32]) -> State {
    of_words(line).expect("an accepted call is on a state, and leaves one")
}

/// The low tasks of a critical state: those of them that are released or run are kept.
fn low_when_critical(line: &[u32]) -> Vec<usize> {
    let state = state_in(line);
    let low = (0..usize::from(state.count)).filter(|&task| !state.entries[task].is_high());
    low.filter(|_| state.mode == Mode::Critical).collect()
}

/// Reports of a tick: mostly of running nodes alone, else with a node that doesn't run, or not one for each task.
pub fn reports(random: &mut Random, state: &State) -> Vec<u32> {
    let count = usize::from(state.count).min(16);
    let mut reports: Vec<u32> = (0..count).map(|task| report(random, state, task)).collect();
    if random.once_in(4) && count > 0 {
        let task = random.within(0..=count - 1);
        reports[task] |= not_running(random, state, task).unwrap_or(0);
        if random.once_in(3) {
            let task = random.within(0..=count - 1);
            reports[task] = random.word() as u32;
        }
    }
    if random.once_in(8) {
        let length = *random.pick(&[0, count.saturating_sub(1), count + 1, 16, 17, 100]);
        reports.resize(length, 0);
    }
    reports
}

/// A task number: mostly one of the state's.
fn task_number(random: &mut Random, state: &State) -> usize {
    let count = usize::from(state.count);
    if random.once_in(5) {
        *random.pick(&[count, count + 1, 15, 16, 17, 255, 256, 1 << 16, 1 << 32, usize::MAX])
    } else {
        random.within(0..=count.saturating_sub(1))
    }
}

/// A board's length: mostly the right one.
fn board_length(random: &mut Random, state: &State) -> usize {
    let needed = 2 * usize::from(state.processors);
    if random.once_in(4) {
        *random.pick(&[0, 1, needed.saturating_sub(1), needed + 1, needed / 2, 2 * needed, 128, 129, 512])
    } else {
        needed
    }
}

/// A random call of each kind on a state.
pub fn one_of_each(random: &mut Random, state: &State, comparison: &mut Comparison) {
    each_on(random, &to_words(state), state, comparison);
}

/// A random call of each kind on a line, with arguments for a state.
pub fn each_on(random: &mut Random, line: &[u32], state: &State, comparison: &mut Comparison) {
    let task = task_number(random, state);
    comparison.release(line, task);
    comparison.tick(line, &reports(random, state));
    let length = board_length(random, state);
    comparison.board(line, &random.bytes(length));
}

/// So many random calls of Release and Tick, each on the line that the one before it left, and a board after each.
pub fn walk(random: &mut Random, mut line: Vec<u32>, calls: usize, comparison: &mut Comparison) {
    for _ in 0..calls {
        let seen = of_words(&line).expect("a line stays a state");
        let task = task_number(random, &seen);
        line = match random.within(0..=3) {
            0 => comparison.release(&line, task).1,
            _ => comparison.tick(&line, &reports(random, &seen)).1,
        };
        let length = board_length(random, &seen);
        comparison.board(&line, &random.bytes(length));
    }
}
