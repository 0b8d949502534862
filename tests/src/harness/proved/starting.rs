//! The proved Start, on lines of words.
use crate::harness::boundary::{STATE, UNWRITTEN};
use crate::harness::proved::calls;
use crate::harness::proved::dispatching::on_line;
use crate::reference::answers::Reply;

/// The proved Start's answer to a sheet, and the line that it leaves of one in which nothing was written.
pub fn start(sheet: &[u8]) -> (Reply, Vec<u32>) {
    start_on(sheet, &[UNWRITTEN; STATE])
}

/// The same on any line.
pub fn start_on(sheet: &[u8], line: &[u32]) -> (Reply, Vec<u32>) {
    on_line(line, |line| calls::start(sheet, line))
}
