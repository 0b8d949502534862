//! The rows of the table: a call on an input, on both sides.
use crate::inputs::{Input, Text, DEADLINE, LEVEL, PERCENTAGE};
use crate::plain;
use dibwunek_tests::harness::boundary::STATE;
use dibwunek_tests::harness::proved::calls as proved;
use dibwunek_tests::reference::planner::TASK_BYTES;
use std::hint::black_box;

type Call = Box<dyn FnMut() -> u32>;

/// One call on both sides.
pub struct Pair {
    pub plain: Call,
    pub proved: Call,
}

pub struct Row {
    pub input: String,
    pub growth: bool,
    pub call: &'static str,
    pub whole: Pair,
    /// What is subtracted from `whole`, where the call's own cost is a difference.
    pub base: Option<Pair>,
    /// How often the call is made within `whole`.
    pub times: u32,
}

type Plan = fn(&[u8], &mut [u8]) -> u32;
type Import = fn(&[u8], u32, u32, u32, &mut [u8]) -> u32;
type Start = fn(&[u8], &mut [u32]) -> u32;
type Release = fn(&mut [u32], usize) -> u32;
type Tick = fn(&mut [u32], &[u32]) -> u32;
type Board = fn(&[u32], &mut [u8]) -> u32;
type Ticks = fn(&[u32], &[u32], u32) -> u32;
type Releases = fn(&[u32], usize, u32) -> u32;
type Boards = fn(&[u32], &mut [u8], u32) -> u32;

/// The same closure over either side's function. A closure owns what its call reads and writes; a buffer is zero at
/// first and is not cleared again.
fn pair<F: Copy>(plain: F, proved: F, made: impl Fn(F) -> Call) -> Pair {
    Pair { plain: made(plain), proved: made(proved) }
}

fn plan(input: &Input) -> Pair {
    pair(plain::plan as Plan, proved::plan, |call| {
        let (sheet, mut out) = (input.sheet.clone(), vec![0; TASK_BYTES * input.count]);
        Box::new(move || call(black_box(&sheet), black_box(&mut out)))
    })
}

fn import(text: &Text) -> Pair {
    pair(plain::import as Import, proved::import, |call| {
        let (text, mut record) = (text.text.clone(), vec![0; text.record]);
        Box::new(move || {
            let [level, deadline, percentage] = black_box([LEVEL, DEADLINE, PERCENTAGE]);
            call(black_box(&text), level, deadline, percentage, black_box(&mut record))
        })
    })
}

fn start(input: &Input) -> Pair {
    pair(plain::start as Start, proved::start, |call| {
        let (sheet, mut line) = (input.sheet.clone(), vec![0; STATE]);
        Box::new(move || call(black_box(&sheet), black_box(&mut line)))
    })
}

/// A call that changes its line: the line is copied before each call, on both sides alike.
fn tick(line: &[u32], reports: &[u32]) -> Pair {
    pair(plain::tick as Tick, proved::tick, |call| {
        let (before, reports, mut line) = (line.to_vec(), reports.to_vec(), vec![0; STATE]);
        Box::new(move || {
            line.copy_from_slice(black_box(&before));
            call(black_box(&mut line), black_box(&reports))
        })
    })
}

fn release(line: &[u32], task: usize) -> Pair {
    pair(plain::release as Release, proved::release, |call| {
        let (before, mut line) = (line.to_vec(), vec![0; STATE]);
        Box::new(move || {
            line.copy_from_slice(black_box(&before));
            call(black_box(&mut line), black_box(task))
        })
    })
}

/// The copy of a line alone, which is subtracted.
fn copy(line: &[u32]) -> Pair {
    pair((), (), |()| {
        let (before, mut line) = (line.to_vec(), vec![0; STATE]);
        Box::new(move || {
            line.copy_from_slice(black_box(&before));
            black_box(&mut line)[0]
        })
    })
}

fn board(input: &Input) -> Pair {
    pair(plain::board as Board, proved::board, |call| {
        let (line, mut out) = (input.alive.clone(), vec![0; 2 * input.processors]);
        Box::new(move || call(black_box(&line), black_box(&mut out)))
    })
}

fn ticks(input: &Input, count: u32) -> Pair {
    pair(plain::tick_many as Ticks, proved::tick_many, |call| {
        let (line, reports) = (input.alive.clone(), vec![0; input.count]);
        Box::new(move || call(black_box(&line), black_box(&reports), black_box(count)))
    })
}

fn releases(input: &Input, count: u32) -> Pair {
    pair(plain::release_many as Releases, proved::release_many, |call| {
        let (line, task) = (input.fresh.clone(), input.count - 1);
        Box::new(move || call(black_box(&line), black_box(task), black_box(count)))
    })
}

fn boards(input: &Input, count: u32) -> Pair {
    pair(plain::board_many as Boards, proved::board_many, |call| {
        let (line, mut out) = (input.alive.clone(), vec![0; 2 * input.processors]);
        Box::new(move || call(black_box(&line), black_box(&mut out), black_box(count)))
    })
}

/// The rows of one input.
fn rows_of(input: &Input) -> Vec<Row> {
    let row = |call, whole| Row { input: input.name.clone(), growth: input.growth, call, whole, base: None, times: 1 };
    let alone = |call, made: fn(&Input, u32) -> Pair| Row {
        base: Some(made(input, 0)),
        times: input.ticks,
        ..row(call, made(input, input.ticks))
    };
    let in_place = |call, whole| Row { base: Some(copy(&input.fresh)), ..row(call, whole) };
    if input.plan_only {
        return vec![row("plan", plan(input))];
    }
    let mut rows = vec![row("plan", plan(input)), row("start, words", start(input))];
    if input.accepted {
        rows.extend([alone("tick", ticks), alone("release", releases), alone("board", boards)]);
    }
    if input.accepted && !input.growth {
        rows.extend([
            in_place("tick, words", tick(&input.alive, &input.reports)),
            in_place("tick that switches, words", tick(&input.late, &vec![0; input.count])),
            in_place("tick that returns, words", tick(&input.last, &input.last_reports)),
            in_place("release, words", release(&input.fresh, input.count - 1)),
            row("board, words", board(input)),
            row("reading the line", ticks(input, 0)),
        ]);
    }
    rows
}

/// The row of one text.
fn row_of(text: &Text) -> Row {
    Row { input: text.name.clone(), growth: text.growth, call: "import", whole: import(text), base: None, times: 1 }
}

pub fn of(inputs: &[Input], texts: &[Text]) -> Vec<Row> {
    inputs.iter().flat_map(rows_of).chain(texts.iter().map(row_of)).collect()
}
