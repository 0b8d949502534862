//! The plain Rust behind the same signatures as the exported functions, with the same lines and answer words.
use crate::dispatcher::{self, State, TaskState, TickAnswer};
use crate::importer::{self, Terms};
use crate::planner::{self, Share};
use crate::sheet::{Answer, Refusal};
use dibwunek_tests::harness::boundary::{ENTRY, HEAD, STATE};
use dibwunek_tests::reference::answers::NO_TASK;
use dibwunek_tests::reference::reader::NODES;
use std::hint::black_box;

pub const ACCEPTED: u32 = 256 * NO_TASK as u32;
pub const SWITCHED: u32 = 65_536;
pub const RETURNED: u32 = 131_072;
const NOT_STATE: u32 = 100 + 256 * NO_TASK as u32;

fn refused_word(refused: Refusal) -> u32 {
    u32::from(refused.number) + 256 * u32::from(refused.task)
}

fn word(answer: Answer) -> u32 {
    match answer {
        Ok(()) => ACCEPTED,
        Err(refused) => refused_word(refused),
    }
}

fn tick_word(answer: TickAnswer) -> u32 {
    match answer {
        TickAnswer::Ran => ACCEPTED,
        TickAnswer::Switched(task) => SWITCHED + 256 * u32::from(task),
        TickAnswer::Returned => RETURNED + ACCEPTED,
        TickAnswer::Refused(refused) => refused_word(refused),
    }
}

fn decoded_entry(words: &[u32; ENTRY]) -> TaskState {
    let mut masks = [0; NODES];
    masks.copy_from_slice(&words[2..34]);
    TaskState {
        level: words[0] as u8,
        nodes: words[1] as u8,
        masks,
        deadline: words[34],
        virtual_deadline: words[35],
        share: Share { typical: words[36] as u8, critical: words[37] as u8 },
        age: words[38],
        ended: words[39],
        alive: words[40] != 0,
    }
}

/// Whether each word of an entry fits its field.
fn entry_fits(words: &[u32]) -> bool {
    (words[0] < 256) & (words[1] < 256) & (words[36] < 256) & (words[37] < 256) & (words[40] < 2)
}

/// The state that a line says, if it is one.
fn decoded(line: &[u32]) -> Option<State> {
    let line: &[u32; STATE] = line.try_into().ok()?;
    let head = (line[0] < 256) & (line[1] < 256) & (line[2] < 2);
    if !line[HEAD..].chunks_exact(ENTRY).fold(head, |fits, words| fits & entry_fits(words)) {
        return None;
    }
    Some(State {
        processors: line[0] as u8,
        count: line[1] as u8,
        critical: line[2] != 0,
        entries: std::array::from_fn(|i| decoded_entry(line[HEAD + ENTRY * i..].first_chunk().expect("an entry"))),
    })
}

fn encode_entry(entry: &TaskState, words: &mut [u32]) {
    words[0] = entry.level.into();
    words[1] = entry.nodes.into();
    words[2..34].copy_from_slice(&entry.masks);
    words[34] = entry.deadline;
    words[35] = entry.virtual_deadline;
    words[36] = entry.share.typical.into();
    words[37] = entry.share.critical.into();
    words[38] = entry.age;
    words[39] = entry.ended;
    words[40] = entry.alive.into();
}

/// Writes a state over a line of its length.
fn encode(state: &State, line: &mut [u32]) {
    let line: &mut [u32; STATE] = line.try_into().expect("a line of a state's length");
    line[..HEAD].copy_from_slice(&[state.processors.into(), state.count.into(), state.critical.into()]);
    for (entry, words) in state.entries.iter().zip(line[HEAD..].chunks_exact_mut(ENTRY)) {
        encode_entry(entry, words);
    }
}

#[inline(never)]
pub fn plan(sheet: &[u8], buffer: &mut [u8]) -> u32 {
    word(planner::plan(sheet, buffer))
}

#[inline(never)]
pub fn import(text: &[u8], level: u32, deadline: u32, percentage: u32, record: &mut [u8]) -> u32 {
    word(importer::import(text, Terms { level, deadline, percentage }, record))
}

#[inline(never)]
pub fn start(sheet: &[u8], line: &mut [u32]) -> u32 {
    if line.len() != STATE {
        return NOT_STATE;
    }
    let started = dispatcher::start(sheet);
    if started.answer.is_ok() {
        encode(&started.state, line);
    }
    word(started.answer)
}

#[inline(never)]
pub fn release(line: &mut [u32], task: usize) -> u32 {
    let Some(state) = decoded(line) else { return NOT_STATE };
    let released = dispatcher::release(state, task);
    if released.answer.is_ok() {
        encode(&released.state, line);
    }
    word(released.answer)
}

#[inline(never)]
pub fn tick(line: &mut [u32], reports: &[u32]) -> u32 {
    let Some(state) = decoded(line) else { return NOT_STATE };
    let ticked = dispatcher::tick(state, reports);
    if !matches!(ticked.answer, TickAnswer::Refused(_)) {
        encode(&ticked.state, line);
    }
    tick_word(ticked.answer)
}

#[inline(never)]
pub fn board(line: &[u32], buffer: &mut [u8]) -> u32 {
    let Some(state) = decoded(line) else { return NOT_STATE };
    word(dispatcher::board(state, buffer).answer)
}

/// The answer of the last of `count` ticks with the same reports, the line read once.
#[inline(never)]
pub fn tick_many(line: &[u32], reports: &[u32], count: u32) -> u32 {
    let Some(mut state) = decoded(line) else { return NOT_STATE };
    let mut word = ACCEPTED;
    for _ in 0..count {
        let ticked = dispatcher::tick(state, reports);
        word = tick_word(ticked.answer);
        state = ticked.state;
    }
    word
}

/// The answer of the last of `count` releases, each on the line's state.
#[inline(never)]
pub fn release_many(line: &[u32], task: usize, count: u32) -> u32 {
    let Some(state) = decoded(line) else { return NOT_STATE };
    let mut last = ACCEPTED;
    for _ in 0..count {
        last = word(dispatcher::release(black_box(&state).clone(), task).answer);
    }
    last
}

/// The answer of the last of `count` boards of the line's state, all in the same buffer.
#[inline(never)]
pub fn board_many(line: &[u32], buffer: &mut [u8], count: u32) -> u32 {
    let Some(state) = decoded(line) else { return NOT_STATE };
    let mut last = ACCEPTED;
    for _ in 0..count {
        last = word(dispatcher::board(black_box(&state).clone(), buffer).answer);
    }
    last
}
