//! The proved planner.
use crate::harness::proved::calls;
use crate::reference::answers::Reply;

/// The proved planner's answer to a sheet; an accepted one's plan goes to the buffer's front.
pub fn plan(sheet: &[u8], buffer: &mut [u8]) -> Reply {
    Reply::of_word(calls::plan(sheet, buffer))
}
