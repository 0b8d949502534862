//! The dispatcher in plain Rust, written from the specification: the state goes in by value and comes back by value.
use crate::planner::{choose, virtual_deadline, Share};
use crate::sheet::{is_high, level_lawful, limit, masks_lawful, read, refusal, Answer, Refusal};
use dibwunek_tests::reference::answers::NO_TASK;
use dibwunek_tests::reference::reader::{NODES, TASKS};

#[derive(Clone, Copy, Default)]
pub struct TaskState {
    pub level: u8,
    pub nodes: u8,
    pub masks: [u32; NODES],
    pub deadline: u32,
    pub virtual_deadline: u32,
    pub share: Share,
    pub age: u32,
    pub ended: u32,
    pub alive: bool,
}

#[derive(Clone, Default)]
pub struct State {
    pub processors: u8,
    pub count: u8,
    pub critical: bool,
    pub entries: [TaskState; TASKS],
}

pub enum TickAnswer {
    Ran,
    Switched(u8),
    Returned,
    Refused(Refusal),
}

/// A state, and beside it the answer of Start, Release or Board.
pub struct Answered {
    pub state: State,
    pub answer: Answer,
}

/// A state, and beside it the answer of Tick.
pub struct Ticked {
    pub state: State,
    pub answer: TickAnswer,
}

const NOT_SOUND: Refusal = Refusal { number: 10, task: NO_TASK };

/// The set of the k lowest nodes, for k from 1 to 32.
fn full(k: u8) -> u32 {
    u32::MAX >> (32 - u32::from(k))
}

/// The `count` lowest members of a set.
fn lowest(set: u32, count: u8) -> u32 {
    if set.count_ones() <= u32::from(count) {
        return set;
    }
    let mut rest = set;
    for _ in 0..count {
        rest &= rest - 1;
    }
    set & !rest
}

impl TaskState {
    fn masks(&self) -> &[u32] {
        &self.masks[..usize::from(self.nodes)]
    }

    fn is_sound(&self) -> bool {
        level_lawful(self.level)
            && (1..=32).contains(&self.nodes)
            && masks_lawful(self.masks())
            && (1..=limit(self.level)).contains(&self.deadline)
            && self.virtual_deadline <= self.deadline
            && self.age <= self.deadline
            && self.ended <= full(self.nodes)
            && !(self.alive && self.ended == full(self.nodes))
    }

    fn ready(&self) -> u32 {
        if !self.alive {
            return 0;
        }
        let mut free = 0;
        for (v, mask) in self.masks().iter().enumerate() {
            free |= u32::from(mask & !self.ended == 0) << v;
        }
        free & !self.ended
    }

    fn share(&self, critical: bool) -> u8 {
        if critical {
            self.share.critical
        } else {
            self.share.typical
        }
    }

    fn running(&self, critical: bool) -> u32 {
        lowest(self.ready(), self.share(critical))
    }

    /// Whether the critical mode has processors for it: a high task, or a low one that is kept.
    fn stays(&self) -> bool {
        is_high(self.level) || self.share.critical > 0
    }

    fn has_high_job(&self) -> bool {
        is_high(self.level) && self.alive
    }

    fn is_late(&self) -> bool {
        self.has_high_job() && self.age >= self.virtual_deadline
    }
}

impl State {
    fn tasks(&self) -> &[TaskState] {
        &self.entries[..usize::from(self.count)]
    }

    fn tasks_mut(&mut self) -> &mut [TaskState] {
        &mut self.entries[..usize::from(self.count)]
    }

    fn is_sound(&self) -> bool {
        if !(1..=64).contains(&self.processors) || !(1..=16).contains(&self.count) {
            return false;
        }
        let (mut typical, mut critical) = (0, 0);
        for entry in self.tasks() {
            if !entry.is_sound() {
                return false;
            }
            typical += u32::from(entry.share.typical);
            critical += u32::from(entry.share.critical);
        }
        typical.max(critical) <= u32::from(self.processors)
    }
}

pub fn start(sheet: &[u8]) -> Answered {
    match fresh(sheet) {
        Ok(state) => Answered { state, answer: Ok(()) },
        Err(refused) => Answered { state: State::default(), answer: Err(refused) },
    }
}

fn fresh(sheet: &[u8]) -> Result<State, Refusal> {
    let set = read(sheet)?;
    let shares = choose(&set)?;
    let mut state = State { processors: set.processors, count: set.count, ..State::default() };
    for ((entry, task), share) in state.entries.iter_mut().zip(set.tasks()).zip(shares) {
        *entry = TaskState {
            level: task.level,
            nodes: task.nodes,
            masks: task.masks,
            deadline: task.figures.d,
            virtual_deadline: virtual_deadline(task, share.typical).0,
            share,
            age: task.figures.d,
            ended: 0,
            alive: false,
        };
    }
    Ok(state)
}

pub fn release(mut state: State, task: usize) -> Answered {
    let answer = released(&mut state, task);
    Answered { state, answer }
}

fn released(state: &mut State, task: usize) -> Answer {
    if !state.is_sound() {
        return Err(NOT_SOUND);
    }
    let critical = state.critical;
    let entry = state.tasks_mut().get_mut(task).ok_or(Refusal { number: 11, task: NO_TASK })?;
    if critical && !entry.stays() {
        return Err(refusal(12, task));
    }
    if entry.alive || entry.age < entry.deadline {
        return Err(refusal(13, task));
    }
    (entry.alive, entry.ended, entry.age) = (true, 0, 0);
    Ok(())
}

pub fn tick(mut state: State, reports: &[u32]) -> Ticked {
    let answer = ticked(&mut state, reports).unwrap_or_else(TickAnswer::Refused);
    Ticked { state, answer }
}

fn ticked(state: &mut State, reports: &[u32]) -> Result<TickAnswer, Refusal> {
    if !state.is_sound() {
        return Err(NOT_SOUND);
    }
    if reports.len() != usize::from(state.count) {
        return Err(Refusal { number: 14, task: NO_TASK });
    }
    for (i, (entry, report)) in state.tasks().iter().zip(reports).enumerate() {
        if report & !entry.running(state.critical) != 0 {
            return Err(refusal(15, i));
        }
    }
    for (entry, report) in state.tasks_mut().iter_mut().zip(reports) {
        entry.ended |= report;
        entry.alive &= entry.ended != full(entry.nodes);
        entry.age = (entry.age + 1).min(entry.deadline);
    }
    if state.critical {
        state.critical = state.tasks().iter().any(TaskState::has_high_job);
        return Ok(if state.critical { TickAnswer::Ran } else { TickAnswer::Returned });
    }
    let Some(late) = state.tasks().iter().position(TaskState::is_late) else { return Ok(TickAnswer::Ran) };
    state.critical = true;
    for entry in state.tasks_mut() {
        entry.alive &= entry.stays();
    }
    Ok(TickAnswer::Switched(late as u8))
}

pub fn board(state: State, buffer: &mut [u8]) -> Answered {
    let answer = boarded(&state, buffer);
    Answered { state, answer }
}

fn boarded(state: &State, buffer: &mut [u8]) -> Answer {
    if !state.is_sound() {
        return Err(NOT_SOUND);
    }
    if buffer.len() != 2 * usize::from(state.processors) {
        return Err(Refusal { number: 16, task: NO_TASK });
    }
    buffer.fill(255);
    let mut at = 0;
    for (task, entry) in state.tasks().iter().enumerate() {
        let mut rest = entry.running(state.critical);
        for pair in buffer[at..].chunks_exact_mut(2) {
            if rest == 0 {
                break;
            }
            pair.copy_from_slice(&[task as u8, rest.trailing_zeros() as u8]);
            rest &= rest - 1;
        }
        at += 2 * usize::from(entry.share(state.critical));
    }
    Ok(())
}
