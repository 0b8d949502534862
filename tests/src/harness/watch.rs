//! What is known of a task's last job in a list of calls. Running nodes are those of the dispatcher's boards.
use crate::harness::counts::Counts;
use crate::harness::returns::Step;
use crate::makers::lengths::Budget;
use crate::reference::dispatcher::{Entry, Mode, NODES};
use crate::reference::reader::Task;

pub struct Watch<'a> {
    lengths: &'a [u32],
    /// The ticks on which each node has run.
    runs: [u32; NODES],
    /// Whether every report so far was true.
    pub truthful: bool,
    pub ticks: u32,
    /// The tick with which the last node ended.
    pub ended: Option<u32>,
    pub keeps_nominal: bool,
    pub keeps_overload: bool,
    /// The state at its release.
    began: Mode,
    /// Whether a switch dropped it.
    pub dropped: bool,
    /// Whether the state was typical before each of its ticks so far.
    pub typical_only: bool,
    /// Whether a tick found it alive in the typical state, and in the critical one.
    in_typical: bool,
    in_critical: bool,
    /// Whether the state turned critical while it was alive, or typical, and left it so.
    over_switch: bool,
    over_return: bool,
}

impl Watch<'_> {
    pub fn new<'a>(task: &Task, lengths: &'a [u32], began: Mode) -> Watch<'a> {
        let figures = task.figures;
        let allows = |work: u32, span: u32| Budget { work, span }.allows(&task.masks, lengths);
        Watch {
            lengths,
            runs: [0; NODES],
            truthful: true,
            ticks: 0,
            ended: None,
            keeps_nominal: allows(figures.cn, figures.ln),
            keeps_overload: allows(figures.co, figures.lo),
            began,
            dropped: false,
            typical_only: true,
            in_typical: false,
            in_critical: false,
            over_switch: false,
            over_return: false,
        }
    }

    /// Whether neither an end nor a drop was seen.
    pub fn is_going_on(&self) -> bool {
        self.ended.is_none() && !self.dropped
    }

    /// An accepted tick: true reports name the running nodes whose length is run with it, and no others.
    pub fn tick(&mut self, running: &[usize], report: u32, mode: Mode) {
        self.ticks += 1;
        self.typical_only &= mode == Mode::Typical;
        self.in_typical |= self.is_going_on() && mode == Mode::Typical;
        self.in_critical |= self.is_going_on() && mode == Mode::Critical;
        let mut ended = 0;
        for &v in running {
            self.runs[v] += 1;
            ended |= u32::from(self.runs[v] == self.lengths[v]) << v;
        }
        self.truthful &= report == ended;
    }

    /// What that tick left of it.
    pub fn left_as(&mut self, entry: &Entry, step: &Step) {
        if self.is_going_on() && entry.all_ended() {
            self.ended = Some(self.ticks);
        }
        self.dropped |= self.is_going_on() && !entry.alive;
        self.over_switch |= step.has_switched() && entry.alive;
        self.over_return |= step.has_returned() && entry.alive;
    }

    /// Whether it was alive in both modes, and ended in this tick.
    fn of_both_modes_ended_in(&self, tick: u32) -> bool {
        self.in_typical && self.in_critical && self.ended == Some(tick)
    }

    /// Counts a high job that ended in time.
    pub fn count_high(&self, deadline: u32, counts: &mut Counts) {
        counts.add("high jobs that were due");
        let ended = self.ended.unwrap_or(deadline);
        if ended + 1 >= deadline {
            counts.add("of these ended within one tick of D");
        }
        if ended == deadline {
            counts.add("of these ended in tick D");
        }
        if self.of_both_modes_ended_in(deadline) {
            counts.add("high jobs of both modes that ended in tick D");
        }
    }

    /// Counts a kept low job that ended in time.
    pub fn count_kept(&self, deadline: u32, counts: &mut Counts) {
        counts.add("kept jobs that were due");
        if self.over_switch {
            counts.add("kept jobs alive over a switch");
        }
        if self.over_return {
            counts.add("kept jobs alive over a return");
        }
        if self.began == Mode::Critical {
            counts.add("kept jobs released when critical");
        }
        if self.ended == Some(deadline) {
            counts.add("kept jobs that ended in tick D");
        }
        if self.of_both_modes_ended_in(deadline) {
            counts.add("kept jobs of both modes that ended in tick D");
        }
    }
}
