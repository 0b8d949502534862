//! The proved import.
use crate::harness::proved::calls;
use crate::reference::answers::Reply;
use crate::reference::import::Terms;

/// The proved import's answer to a text; an accepted one's record goes to the buffer's front.
pub fn import(text: &[u8], terms: Terms, buffer: &mut [u8]) -> Reply {
    Reply::of_word(calls::import(text, terms.level, terms.deadline, terms.percentage, buffer))
}
