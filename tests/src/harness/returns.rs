//! Holds ticks to what is promised of a return to the typical state: which ticks return, what they leave, and what may be
//! released then (S10.12); and how soon after a switch one comes (S10.13). Counts returns by what stands around them.
use crate::harness::boundary::{of_words, place, Dispatcher, AGE, ALIVE, DEADLINE, ENDED, MODE, NODE_COUNT};
use crate::harness::counts::{hold, Counts};
use crate::makers::random::seed;
use crate::reference::answers::{Cause, Reply};
use crate::reference::dispatcher::{Mode, State};
use crate::reference::planner::Plan;
use crate::reference::reader::{Level, Sheet, Task};

/// An accepted tick: its reports, its answer, and the lines and states before and after it.
pub struct Step<'a> {
    pub reports: &'a [u32],
    reply: Reply,
    lines: [&'a [u32]; 2],
    pub before: State,
    pub after: State,
}

impl Step<'_> {
    pub fn new<'a>(reports: &'a [u32], reply: Reply, before: &'a [u32], after: &'a [u32]) -> Step<'a> {
        let state = |line| of_words(line).expect("an accepted tick is on a state, and leaves one");
        Step { reports, reply, lines: [before, after], before: state(before), after: state(after) }
    }

    pub fn has_switched(&self) -> bool {
        matches!(self.reply, Reply::Switched(_))
    }

    pub fn has_returned(&self) -> bool {
        self.reply == Reply::Returned
    }

    /// S10.12: a tick answers that it returned just if it finds the state critical and leaves no high job alive. Then each
    /// task is as its own part of the tick leaves it, and may be released if it has no job and its age is D.
    pub fn keeps_to_return(&self, dispatcher: &dyn Dispatcher, on: impl Fn() -> String) {
        let is_over = self.before.mode == Mode::Critical && self.after.high_jobs().is_empty();
        hold(&self.has_returned(), &is_over, &on);
        if self.has_returned() {
            let [_, after] = self.lines;
            hold(&after, &&self.parts()[..], &on);
            is_open_to_all(dispatcher, after, on);
        }
    }

    /// The line of the typical state after each task's own part of the tick.
    fn parts(&self) -> Vec<u32> {
        let mut line = self.lines[0].to_vec();
        line[MODE] = 0;
        for (task, report) in self.reports.iter().enumerate() {
            let nodes = u32::MAX >> (32 - line[place(task, NODE_COUNT)]);
            line[place(task, ENDED)] |= report;
            line[place(task, ALIVE)] &= u32::from(line[place(task, ENDED)] != nodes);
            line[place(task, AGE)] = line[place(task, DEADLINE)].min(line[place(task, AGE)] + 1);
        }
        line
    }
}

/// Each task may be released just if its job is not alive and its age is D.
fn is_open_to_all(dispatcher: &dyn Dispatcher, line: &[u32], on: impl Fn() -> String) {
    for task in 0..line[1] as usize {
        let is_due = line[place(task, AGE)] == line[place(task, DEADLINE)];
        let expected = match line[place(task, ALIVE)] == 0 && is_due {
            true => Reply::Done,
            false => Reply::Refused(Cause::NotDue as u8, task as u8),
        };
        hold(&dispatcher.release(line, task).0, &expected, || format!("a release of {task} after {}", on()));
    }
}

/// What is known of the switches and returns of a list so far.
pub struct Returns {
    /// Of each task whether its level is high.
    high: Vec<bool>,
    /// Of each task whether it has processors in the critical state.
    stays: Vec<bool>,
    /// The longest deadline of the high tasks.
    longest: u32,
    switches: usize,
    returns: usize,
    /// The accepted ticks since a switch that no return and no release of a high task has followed.
    since_switch: Option<u32>,
    /// Whether the last accepted tick returned.
    just_returned: bool,
    /// The high tasks released since the last accepted tick.
    just_released: Vec<usize>,
}

impl Returns {
    pub fn new(sheet: &Sheet, plan: &Plan) -> Returns {
        let is_high = |task: &Task| task.level == Level::High;
        let high = sheet.tasks.iter().filter(|task| is_high(task));
        Returns {
            high: sheet.tasks.iter().map(is_high).collect(),
            stays: plan.tasks.iter().map(|task| task.shares.critical > 0).collect(),
            longest: high.map(|task| task.figures.d).max().unwrap_or(0),
            switches: 0,
            returns: 0,
            since_switch: None,
            just_returned: false,
            just_released: Vec::new(),
        }
    }

    /// An accepted release.
    pub fn release(&mut self, task: usize, counts: &mut Counts) {
        if !self.stays[task] && self.returns > 0 {
            counts.add("low jobs released after a return");
        }
        if self.high[task] {
            self.since_switch = None;
            self.just_released.push(task);
        }
        if self.high[task] && self.just_returned {
            counts.add("high jobs released just after a return");
        }
    }

    /// S10.13: an accepted tick, in a list in which all high jobs so far kept their overload budgets under true reports, or
    /// not.
    pub fn tick(&mut self, step: &Step, is_within: bool, counts: &mut Counts, on: impl Fn() -> String) {
        self.since_switch = self.since_switch.map(|ticks| ticks + 1);
        if let Some(ticks) = self.since_switch.filter(|_| is_within) {
            let is_in_time = ticks + u32::from(!step.has_returned()) < self.longest;
            assert!(is_in_time, "seed {}: no return {ticks} ticks after the switch: {}", seed(), on());
            if step.has_returned() {
                counts.add("returns that were due");
            }
            if step.has_returned() && ticks + 1 == self.longest {
                counts.add("returns one tick before the longest D");
            }
        }
        self.count_releases(step, counts);
        if step.has_switched() {
            self.switches += 1;
            self.since_switch = Some(0);
        }
        if step.has_returned() {
            self.returns += 1;
            self.since_switch = None;
        }
        self.just_returned = step.has_returned();
        self.just_released.clear();
    }

    /// Counts the high jobs that were released just before a return, or without which there had been one.
    fn count_releases(&self, step: &Step, counts: &mut Counts) {
        for _ in self.just_released.iter().filter(|_| step.has_returned()) {
            counts.add("high jobs released just before a return");
        }
        let left = step.after.high_jobs();
        let is_new = |task: &usize| self.just_released.contains(task);
        if step.before.mode == Mode::Critical && !left.is_empty() && left.iter().all(is_new) {
            counts.add("returns that a release put off");
        }
    }

    /// Counts a list at its end.
    pub fn close(&self, counts: &mut Counts) {
        if self.switches.min(self.returns) >= 2 {
            counts.add("lists with several switches and returns");
        }
    }
}
