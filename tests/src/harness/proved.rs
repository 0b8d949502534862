//! The proved functions: `calls` as they are exported, the others with answers and states that compare with the reference.
use crate::reference::answers::Answer;
use crate::reference::reader::{NODES, TASKS};

pub mod calls;
pub mod dispatching;
pub mod importing;
pub mod planning;
pub mod starting;

/// The field of node 0's mask; the fields before it are level, k, D, CN, LN, CO, LO.
pub const FIRST_MASK: usize = 7;
/// The fields of a task.
pub const FIELDS: usize = FIRST_MASK + NODES;

extern "C" {
    fn dibwunek_read(sheet: *const u8, len: usize) -> u32;
    fn dibwunek_read_field(sheet: *const u8, len: usize, task: usize, field: usize) -> u32;
}

/// Everything that the proved reader returns beside its answer.
#[derive(Clone, Debug, PartialEq, Eq)]
pub struct TaskSet {
    pub processors: u32,
    pub count: u32,
    pub tasks: [[u32; FIELDS]; TASKS],
}

impl TaskSet {
    /// What a refused reading returns.
    pub const ZERO: TaskSet = TaskSet { processors: 0, count: 0, tasks: [[0; FIELDS]; TASKS] };
}

/// The proved reader's answer to a sheet.
pub fn read(sheet: &[u8]) -> Answer {
    // SAFETY: the pointer and the length are those of a live slice, which the function only reads.
    let answer = unsafe { dibwunek_read(sheet.as_ptr(), sheet.len()) };
    let [number, task, 0, 0] = answer.to_le_bytes() else {
        panic!("{answer} is not number + 256 * task");
    };
    (number, task)
}

/// One field of the task set that the proved reader returns: a task's for `task` below 16; for `task` 16, field 0 is
/// M and field 1 is n; 0 for all others.
pub fn read_field(sheet: &[u8], task: usize, field: usize) -> u32 {
    // SAFETY: as in `read`.
    unsafe { dibwunek_read_field(sheet.as_ptr(), sheet.len(), task, field) }
}

/// The whole task set that the proved reader returns.
pub fn task_set(sheet: &[u8]) -> TaskSet {
    TaskSet {
        processors: read_field(sheet, TASKS, 0),
        count: read_field(sheet, TASKS, 1),
        tasks: std::array::from_fn(|task| std::array::from_fn(|field| read_field(sheet, task, field))),
    }
}
