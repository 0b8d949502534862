//! Runs jobs of many ticks on a dispatcher, tick by tick, in a world whose reports are true. A tick that ran and in which
//! no node ended must change nothing but the ages; every other one is held to the independent dispatcher.
use crate::harness::boundary::{place, Dispatcher, Independent, AGE, ALIVE, DEADLINE};
use crate::harness::counts::hold;
use crate::reference::answers::Reply;

pub struct LongRun<'a> {
    dispatcher: &'a dyn Dispatcher,
    line: Vec<u32>,
    /// What is left of the lengths of each task's job.
    left: Vec<Vec<u32>>,
}

impl LongRun<'_> {
    /// A run from the line of a fresh state.
    pub fn new(dispatcher: &dyn Dispatcher, fresh: Vec<u32>) -> LongRun<'_> {
        let left = vec![Vec::new(); fresh[1] as usize];
        LongRun { dispatcher, line: fresh, left }
    }

    pub fn is_alive(&self, task: usize) -> bool {
        self.line[place(task, ALIVE)] == 1
    }

    /// Whether a task's last release is a deadline ago.
    pub fn is_due(&self, task: usize) -> bool {
        self.line[place(task, AGE)] == self.line[place(task, DEADLINE)]
    }

    /// Begins a job whose nodes have these lengths.
    pub fn release(&mut self, task: usize, lengths: &[u32]) {
        let step = self.dispatcher.release(&self.line, task);
        hold(&step, &Independent.release(&self.line, task), || format!("Release({task}) of {:?}", self.line));
        assert_eq!(step.0, Reply::Done, "Release({task}) of {:?}", self.line);
        self.line = step.1;
        self.left[task] = lengths.to_vec();
    }

    /// A tick with the true reports.
    pub fn tick(&mut self) -> Reply {
        let reports = self.reports();
        let step = self.dispatcher.tick(&self.line, &reports);
        let quiet = step.0 == Reply::Done && reports.iter().all(|&report| report == 0);
        let expected = if quiet { (Reply::Done, aged(&self.line)) } else { Independent.tick(&self.line, &reports) };
        hold(&step, &expected, || format!("Tick({reports:?}) of {:?}", self.line));
        self.line = step.1;
        step.0
    }

    /// Lets the nodes on the board run for a tick, and reports those whose length is run with it.
    fn reports(&mut self) -> Vec<u32> {
        let mut board = vec![0; 2 * self.line[0] as usize];
        assert_eq!(self.dispatcher.board(&self.line, &mut board), Reply::Done);
        let mut reports = vec![0; self.left.len()];
        for pair in board.chunks_exact(2).filter(|pair| **pair != [255, 255]) {
            let (task, node) = (usize::from(pair[0]), usize::from(pair[1]));
            let left = &mut self.left[task][node];
            *left -= 1;
            reports[task] |= u32::from(*left == 0) << node;
        }
        reports
    }
}

/// The line with each age one more, up to D.
fn aged(line: &[u32]) -> Vec<u32> {
    let mut aged = line.to_vec();
    for task in 0..line[1] as usize {
        aged[place(task, AGE)] = line[place(task, DEADLINE)].min(line[place(task, AGE)] + 1);
    }
    aged
}
