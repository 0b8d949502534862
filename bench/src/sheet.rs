//! The reader in plain Rust, written from the specification.
use dibwunek_tests::reference::answers::NO_TASK;
use dibwunek_tests::reference::reader::{NODES, TASKS};

/// Number and task of a refusal, as in S9.
#[derive(Clone, Copy, Debug, PartialEq, Eq)]
pub struct Refusal {
    pub number: u8,
    pub task: u8,
}

pub type Answer = Result<(), Refusal>;

pub fn refusal(number: u8, task: usize) -> Refusal {
    Refusal { number, task: task as u8 }
}

pub fn level_lawful(level: u8) -> bool {
    matches!(level, 0 | 1 | 16 | 17)
}

pub fn is_high(level: u8) -> bool {
    matches!(level, 1 | 17)
}

fn is_wide(level: u8) -> bool {
    level >= 16
}

/// The largest figure of a task of this level.
pub fn limit(level: u8) -> u32 {
    if is_wide(level) {
        1_000_000
    } else {
        10_000
    }
}

#[derive(Clone, Copy, Default)]
pub struct Figures {
    pub d: u32,
    pub cn: u32,
    pub co: u32,
    pub ln: u32,
    pub lo: u32,
}

#[derive(Clone, Copy, Default)]
pub struct Task {
    pub level: u8,
    pub nodes: u8,
    pub figures: Figures,
    pub masks: [u32; NODES],
}

pub struct TaskSet {
    pub processors: u8,
    pub count: u8,
    pub tasks: [Task; TASKS],
}

impl TaskSet {
    pub fn tasks(&self) -> &[Task] {
        &self.tasks[..usize::from(self.count)]
    }
}

/// Refusals 1 and 2, then for each task 3 to 6.
pub fn read(sheet: &[u8]) -> Result<TaskSet, Refusal> {
    let header = Refusal { number: 1, task: NO_TASK };
    let &[processors @ 1..=64, count @ 1..=16, ref rest @ ..] = sheet else { return Err(header) };
    let n = usize::from(count);
    let directory = rest.get(..4 * n).ok_or(header)?;
    let first = 2 + 4 * n;
    let mut place = first;
    for (i, pair) in directory.chunks_exact(4).enumerate() {
        if u16_at(pair, 0) != place {
            return Err(refusal(2, i));
        }
        place += u16_at(pair, 2);
    }
    if place != sheet.len() {
        return Err(refusal(2, n - 1));
    }
    let mut set = TaskSet { processors, count, tasks: [Task::default(); TASKS] };
    let mut records = &sheet[first..];
    for (i, pair) in directory.chunks_exact(4).enumerate() {
        let (record, rest) = records.split_at(u16_at(pair, 2));
        set.tasks[i] = task(record).map_err(|number| refusal(number, i))?;
        records = rest;
    }
    Ok(set)
}

fn task(record: &[u8]) -> Result<Task, u8> {
    let &[level @ (0 | 1 | 16 | 17), nodes @ 1..=32, ref body @ ..] = record else { return Err(3) };
    let bytes_of_figures = if is_wide(level) { 20 } else { 10 };
    if body.len() != bytes_of_figures + 4 * usize::from(nodes) {
        return Err(3);
    }
    let (head, tail) = body.split_at(bytes_of_figures);
    let figures = match is_wide(level) {
        true => Figures::of(|i| u32_at(head, 4 * i)),
        false => Figures::of(|i| u16_at(head, 2 * i) as u32),
    };
    let mut masks = [0; NODES];
    for (mask, bytes) in masks.iter_mut().zip(tail.chunks_exact(4)) {
        *mask = u32_at(bytes, 0);
    }
    if !figures.keep_rules(level) {
        Err(4)
    } else if !masks_lawful(&masks[..usize::from(nodes)]) {
        Err(5)
    } else if figures.co <= figures.d {
        Err(6)
    } else {
        Ok(Task { level, nodes, figures, masks })
    }
}

impl Figures {
    /// The five figures by their places.
    fn of(figure: impl Fn(usize) -> u32) -> Figures {
        Figures { d: figure(0), cn: figure(1), co: figure(2), ln: figure(3), lo: figure(4) }
    }

    fn keep_rules(&self, level: u8) -> bool {
        let Figures { d, cn, co, ln, lo } = *self;
        let limit = limit(level);
        [d, cn, co, ln, lo].iter().all(|figure| (1..=limit).contains(figure))
            && ln <= cn
            && lo <= co
            && cn <= co
            && ln <= lo
            && co - cn >= lo - ln
            && (is_high(level) || (cn == co && ln == lo))
    }
}

/// Whether node v's mask names nodes below v only.
pub fn masks_lawful(masks: &[u32]) -> bool {
    masks.iter().enumerate().all(|(v, mask)| mask >> v == 0)
}

fn u32_at(bytes: &[u8], at: usize) -> u32 {
    u32::from_le_bytes([bytes[at], bytes[at + 1], bytes[at + 2], bytes[at + 3]])
}

fn u16_at(bytes: &[u8], at: usize) -> usize {
    usize::from(u16::from_le_bytes([bytes[at], bytes[at + 1]]))
}
