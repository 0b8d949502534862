//! The words in which a state crosses to the exported functions (S13.1), and the calls on lines of them.
//! Word 0 is M, word 1 n, word 2 the mode (0 typical, 1 critical); then sixteen entries of 41 words: level, k, 32 masks, D, V,
//! typical share, critical share, age, ended set, alive (0 or 1).
use crate::reference::answers::{Cause, Refusal, Reply};
use crate::reference::dispatcher::{self, nodes, set_of, Entry, Mode, State, Ticked, ENTRIES, NODES};

/// The words before the entries, of an entry, and of a state.
pub const HEAD: usize = 3;
pub const ENTRY: usize = 2 + NODES + 7;
pub const STATE: usize = HEAD + ENTRIES * ENTRY;

/// The word of the mode.
pub const MODE: usize = 2;

/// Words of an entry by their places in it.
pub const LEVEL: usize = 0;
pub const NODE_COUNT: usize = 1;
pub const DEADLINE: usize = 2 + NODES;
pub const VIRTUAL_DEADLINE: usize = DEADLINE + 1;
pub const CRITICAL_SHARE: usize = DEADLINE + 3;
pub const AGE: usize = DEADLINE + 4;
pub const ENDED: usize = DEADLINE + 5;
pub const ALIVE: usize = DEADLINE + 6;

/// The place in a line of a word of a task's entry.
pub fn place(task: usize, word: usize) -> usize {
    HEAD + ENTRY * task + word
}

/// A word of a line in which nothing was written: no state has it as its first.
pub const UNWRITTEN: u32 = 0xa5a5_a5a5;

/// The calls on a line. Each gives its answer and the line that it leaves.
pub trait Dispatcher {
    fn release(&self, line: &[u32], task: usize) -> (Reply, Vec<u32>);
    fn tick(&self, line: &[u32], reports: &[u32]) -> (Reply, Vec<u32>);
    /// Gives the answer alone, and writes the buffer.
    fn board(&self, line: &[u32], buffer: &mut [u8]) -> Reply;
}

/// The dispatcher written from the specification's words.
pub struct Independent;

impl Dispatcher for Independent {
    fn release(&self, line: &[u32], task: usize) -> (Reply, Vec<u32>) {
        let released = state_of(line).and_then(|state| state.release(task));
        left_by(line, released.map(|state| (Reply::Done, state)))
    }

    fn tick(&self, line: &[u32], reports: &[u32]) -> (Reply, Vec<u32>) {
        let ticked = state_of(line).and_then(|state| state.tick(reports));
        left_by(line, ticked.map(|Ticked { state, outcome }| (outcome.into(), state)))
    }

    fn board(&self, line: &[u32], buffer: &mut [u8]) -> Reply {
        match state_of(line).and_then(|state| state.board(buffer.len())) {
            Ok(board) => {
                buffer.copy_from_slice(&board);
                Reply::Done
            }
            Err(refusal) => refusal.into(),
        }
    }
}

/// Start of the independent dispatcher, on a line in which nothing was written.
pub fn start(sheet: &[u8]) -> (Reply, Vec<u32>) {
    start_on(sheet, &[UNWRITTEN; STATE])
}

/// Start of the independent dispatcher, on any line.
pub fn start_on(sheet: &[u8], line: &[u32]) -> (Reply, Vec<u32>) {
    let fresh = if line.len() == STATE { dispatcher::start(sheet) } else { Err(NO_STATE) };
    left_by(line, fresh.map(|state| (Reply::Done, state)))
}

const NO_STATE: Refusal = Refusal { cause: Cause::NoState, task: None };

fn state_of(line: &[u32]) -> Result<State, Refusal> {
    of_words(line).ok_or(NO_STATE)
}

/// What a call leaves: a refused one the line as it was.
fn left_by(line: &[u32], step: Result<(Reply, State), Refusal>) -> (Reply, Vec<u32>) {
    match step {
        Ok((reply, state)) => (reply, to_words(&state)),
        Err(refusal) => (refusal.into(), line.to_vec()),
    }
}

pub fn to_words(state: &State) -> Vec<u32> {
    let mut words = Vec::with_capacity(STATE);
    words.extend([state.processors.into(), state.count.into(), u32::from(state.mode == Mode::Critical)]);
    for entry in &state.entries {
        words.extend([entry.level, entry.nodes].map(u32::from));
        words.extend(entry.preceding.iter().map(set_of));
        words.extend([entry.deadline, entry.virtual_deadline, entry.typical.into(), entry.critical.into()]);
        words.extend([entry.age, set_of(&entry.ended), entry.alive.into()]);
    }
    words
}

/// The state that a line says, if it is one (S13.2).
pub fn of_words(line: &[u32]) -> Option<State> {
    let byte = |word: u32| u8::try_from(word).ok();
    let mark = |word: u32| (word < 2).then_some(word == 1);
    let entry = |words: &[u32]| {
        Some(Entry {
            level: byte(words[0])?,
            nodes: byte(words[1])?,
            preceding: std::array::from_fn(|v| nodes(words[2 + v])),
            deadline: words[34],
            virtual_deadline: words[35],
            typical: byte(words[36])?,
            critical: byte(words[37])?,
            age: words[38],
            ended: nodes(words[39]),
            alive: mark(words[40])?,
        })
    };
    if line.len() != STATE {
        return None;
    }
    Some(State {
        processors: byte(line[0])?,
        count: byte(line[1])?,
        mode: if mark(line[2])? { Mode::Critical } else { Mode::Typical },
        entries: line[HEAD..].chunks_exact(ENTRY).map(entry).collect::<Option<_>>()?,
    })
}

/// The words of a line that a field of one byte holds, and those that a mark or the mode holds.
pub fn bounded() -> (Vec<usize>, Vec<usize>) {
    let starts = (0..ENTRIES).map(|i| HEAD + ENTRY * i);
    let bytes = [0, 1].into_iter().chain(starts.clone().flat_map(|at| [at, at + 1, at + 36, at + 37]));
    let marks = [2].into_iter().chain(starts.map(|at| at + 40));
    (bytes.collect(), marks.collect())
}

#[cfg(test)]
mod tests {
    use super::*;
    use crate::makers::random::Random;
    use crate::makers::sheets::CASE_14;
    use crate::makers::states;

    #[test]
    fn the_words_say_the_whole_state() {
        assert_eq!(STATE, 659);
        let mut random = Random::of_test("state words");
        for _ in 0..500 {
            let state = states::sound(&mut random);
            assert_eq!(of_words(&to_words(&state)), Some(state));
        }
    }

    #[test]
    fn case_14_as_words() {
        let (reply, line) = start(&CASE_14);
        assert_eq!(reply, Reply::Done);
        assert_eq!(line[..3], [8, 3, 0]);
        let fields = [(1, [45, 9, 1, 2, 45]), (1, [54, 7, 2, 6, 54]), (0, [18, 0, 5, 0, 18])];
        for (i, (level, [d, v, typical, critical, age])) in fields.into_iter().enumerate() {
            let words = &line[HEAD + ENTRY * i..HEAD + ENTRY * (i + 1)];
            assert_eq!(words[..2], [level, 1]);
            assert!(words[2..34].iter().all(|&mask| mask == 0));
            assert_eq!(words[34..], [d, v, typical, critical, age, 0, 0]);
        }
        assert!(line[HEAD + ENTRY * 3..].iter().all(|&word| word == 0));
        assert_eq!(start(&CASE_14[..13]), (Reply::Refused(1, 255), vec![UNWRITTEN; STATE]));
    }
}
