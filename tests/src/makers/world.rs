//! The world around a dispatcher: lists of calls in which jobs run for lengths of the world's choice, made on the
//! independent dispatcher.
use crate::makers::crafts::{Crafted, Kind};
use crate::makers::random::Random;
use crate::makers::sheets::Draft;
use crate::makers::states;
use crate::reference::answers::Cause;
use crate::reference::dispatcher::{Mode, State};
use crate::reference::logs::Call;
use crate::reference::planner;
use crate::reference::reader::Sheet;
use std::collections::BTreeMap;

/// A list of calls from Start, and the lengths of the nodes of each job that it begins.
#[derive(Clone, Debug)]
pub struct Story {
    pub sheet: Vec<u8>,
    pub calls: Vec<Call>,
    /// By the place of the job's release among the calls.
    pub lengths: BTreeMap<usize, Vec<u32>>,
}

/// When the jobs of a task come.
#[derive(Clone, Copy, Debug, PartialEq, Eq)]
pub enum Pace {
    /// Each as soon as it may.
    Eager,
    /// Each sometime after it may.
    Idle,
    /// One alone, as soon as it may.
    Once,
    /// Each just before a tick that would return without it.
    BeforeReturn,
}

/// How a list of calls is made.
pub struct Manner {
    /// The accepted ticks.
    pub ticks: usize,
    /// The pace of each task's jobs.
    pub paces: Vec<Pace>,
    /// The kinds of each task's jobs.
    pub kinds: Vec<Vec<Kind>>,
    /// The ticks before each task's first job.
    pub first: Vec<usize>,
    /// Whether a task's reports may be false in some of its jobs.
    pub liars: Vec<bool>,
    /// Whether calls that must be refused come in between.
    pub refused: bool,
}

/// A job of the world: what is left of its lengths, and whether its reports are true.
#[derive(Clone)]
pub struct Job {
    left: Vec<u32>,
    liar: bool,
}

/// Makes a list of calls.
pub fn story(random: &mut Random, sheet: &Sheet, tasks: &[Crafted], manner: &Manner) -> Story {
    let mut telling = Telling::new(sheet, tasks, manner);
    for _ in 0..manner.ticks {
        for task in 0..tasks.len() {
            telling.next_job(random, task);
        }
        telling.refused(random);
        let reports = telling.reports(random);
        telling.tick(reports);
    }
    telling.story
}

/// A list of calls while it is made.
pub struct Telling<'a> {
    tasks: &'a [Crafted],
    manner: &'a Manner,
    pub state: State,
    /// The last job of each task.
    pub jobs: Vec<Option<Job>>,
    /// The accepted ticks so far.
    ticks: usize,
    pub story: Story,
}

impl<'a> Telling<'a> {
    pub fn new(sheet: &Sheet, tasks: &'a [Crafted], manner: &'a Manner) -> Telling<'a> {
        let plan = planner::plan(sheet).expect("crafted tasks are planned");
        let story = Story { sheet: Draft::of(sheet).bytes(), calls: Vec::new(), lengths: BTreeMap::new() };
        let jobs = tasks.iter().map(|_| None).collect();
        Telling { tasks, manner, state: State::fresh(sheet, &plan), jobs, ticks: 0, story }
    }

    /// Begins a task's next job, where its pace has it come and the state takes it.
    pub fn next_job(&mut self, random: &mut Random, task: usize) {
        let comes = self.ticks >= self.manner.first[task]
            && match self.manner.paces[task] {
                Pace::Eager => true,
                Pace::Idle => random.once_in(10),
                Pace::Once => self.jobs[task].is_none(),
                Pace::BeforeReturn => would_return(&self.state, &self.jobs),
            };
        let entry = &self.state.entries[task];
        if !comes || entry.alive || entry.age < entry.deadline {
            return;
        }
        let Ok(next) = self.state.release(task) else { return };
        let kind = random.pick(&self.manner.kinds[task]).clone();
        let Some(left) = self.tasks[task].lengths(random, &kind) else { return };
        let liar = self.manner.liars[task] && random.once_in(2);
        self.begin(task, Job { left, liar }, next);
    }

    /// The job of a task that began since the last tick.
    pub fn begun(&self, task: usize) -> Option<&Job> {
        let entry = &self.state.entries[task];
        self.jobs[task].as_ref().filter(|_| entry.alive && entry.age == 0)
    }

    /// Begins a job that began elsewhere, where the state takes it.
    pub fn take_on(&mut self, task: usize, job: &Job) {
        if let Ok(next) = self.state.release(task) {
            self.begin(task, job.clone(), next);
        }
    }

    fn begin(&mut self, task: usize, job: Job, next: State) {
        self.state = next;
        self.story.lengths.insert(self.story.calls.len(), job.left.clone());
        self.story.calls.push(Call::Release(task));
        self.jobs[task] = Some(job);
    }

    /// Sometimes a call that is refused.
    pub fn refused(&mut self, random: &mut Random) {
        if self.manner.refused && random.once_in(4) {
            self.story.calls.extend(refused_call(random, &self.state));
        }
    }

    /// Runs the nodes of all tasks for a tick, and gives the reports.
    pub fn reports(&mut self, random: &mut Random) -> Vec<u32> {
        let state = &self.state;
        let report = |(task, job): (usize, &mut Option<Job>)| {
            job.as_mut().map_or(0, |job| reported(random, job, &state.running(task)))
        };
        self.jobs.iter_mut().enumerate().map(report).collect()
    }

    pub fn tick(&mut self, reports: Vec<u32>) {
        self.state = self.state.tick(&reports).expect("only running nodes are reported").state;
        self.ticks += 1;
        self.story.calls.push(Call::Tick(reports));
    }
}

/// Whether the state is critical, and with the next tick the last node of each high job ends, by true reports.
fn would_return(state: &State, jobs: &[Option<Job>]) -> bool {
    let ends = |task: usize| {
        let (entry, running) = (&state.entries[task], state.running(task));
        let ends = |v: usize| running.contains(&v) && jobs[task].as_ref().is_some_and(|job| job.left[v] == 1);
        (0..usize::from(entry.nodes)).all(|v| entry.ended[v] || ends(v))
    };
    state.mode == Mode::Critical && state.high_jobs().into_iter().all(ends)
}

/// Of some lengths of a kind, those with which a task's job lasts longest, alone under true reports.
pub fn longest_lasting(
    random: &mut Random,
    sheet: &Sheet,
    crafted: &Crafted,
    task: usize,
    kind: &Kind,
) -> Option<Vec<u32>> {
    let plan = planner::plan(sheet).expect("crafted tasks are planned");
    let fresh = State::fresh(sheet, &plan);
    let lasts = |random: &mut Random, lengths: &[u32]| {
        let mut state = fresh.release(task).expect("a fresh state takes every job");
        let mut job = Job { left: lengths.to_vec(), liar: false };
        let mut ticks = 0;
        while state.entries[task].alive {
            let mut reports = vec![0; sheet.tasks.len()];
            reports[task] = reported(random, &mut job, &state.running(task));
            state = state.tick(&reports).expect("only running nodes are reported").state;
            ticks += 1;
        }
        ticks
    };
    let tries: Vec<Vec<u32>> = (0..12).filter_map(|_| crafted.lengths(random, kind)).collect();
    tries.into_iter().max_by_key(|lengths| lasts(random, lengths))
}

/// Runs the nodes for a tick, and gives the report: true, or any of the running nodes.
fn reported(random: &mut Random, job: &mut Job, running: &[usize]) -> u32 {
    let mut report = 0;
    for &v in running {
        job.left[v] = job.left[v].saturating_sub(1);
        let ends = if job.liar { random.once_in(6) } else { job.left[v] == 0 };
        report |= u32::from(ends) << v;
    }
    report
}

/// A call that the state refuses, of any of the refusals 11 to 15 that there is cause for.
fn refused_call(random: &mut Random, state: &State) -> Option<Call> {
    let count = usize::from(state.count);
    let task = random.within(0..=count - 1);
    let mut reports: Vec<u32> = (0..count).map(|task| states::report(random, state, task)).collect();
    let (cause, call) = match random.within(0..=4) {
        0 => (Cause::NoSuchTask, Call::Release(*random.pick(&[count, count + 1, 16, 255, usize::MAX]))),
        1 => {
            let dropped = (0..count).find(|&task| !state.entries[task].stays())?;
            (Cause::NotKept, Call::Release(dropped))
        }
        2 => (Cause::NotDue, Call::Release(task)),
        3 => {
            let length = *random.pick(&[0, count - 1, count + 1, 17]);
            reports.resize(length, 0);
            (Cause::ReportCount, Call::Tick(reports))
        }
        _ => {
            reports[task] |= states::not_running(random, state, task)?;
            (Cause::NotRunning, Call::Tick(reports))
        }
    };
    let refusal = match &call {
        Call::Release(task) => state.release(*task).err(),
        Call::Tick(reports) => state.tick(reports).err(),
    };
    refusal.filter(|refusal| refusal.cause == cause).map(|_| call)
}
