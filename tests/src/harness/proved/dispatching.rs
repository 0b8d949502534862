//! The proved dispatcher, on lines of words.
use crate::harness::boundary::Dispatcher;
use crate::harness::proved::calls;
use crate::reference::answers::Reply;

/// What stands behind a line and a buffer, and must stay.
const BEHIND: u32 = 0x5a5a_5a5a;

/// The proved dispatcher.
pub struct Proved;

/// The answer of a call on a copy of a line, and the line that it leaves. What stands behind the line must stay.
pub fn on_line(line: &[u32], call: impl FnOnce(&mut [u32]) -> u32) -> (Reply, Vec<u32>) {
    let mut held = [line, &[BEHIND]].concat();
    let word = call(&mut held[..line.len()]);
    assert_eq!(held.pop(), Some(BEHIND), "a call wrote behind the line");
    (Reply::of_word(word), held)
}

impl Dispatcher for Proved {
    fn release(&self, line: &[u32], task: usize) -> (Reply, Vec<u32>) {
        on_line(line, |line| calls::release(line, task))
    }

    fn tick(&self, line: &[u32], reports: &[u32]) -> (Reply, Vec<u32>) {
        on_line(line, |line| calls::tick(line, reports))
    }

    fn board(&self, line: &[u32], buffer: &mut [u8]) -> Reply {
        Reply::of_word(calls::board(line, buffer))
    }
}
