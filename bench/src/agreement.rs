//! Both sides give the same answers, lines and bytes: on every input and text, and on some with one byte or word changed.
use crate::inputs::{Input, Text, DEADLINE, LEVEL, PERCENTAGE};
use crate::plain;
use dibwunek_tests::harness::boundary::STATE;
use dibwunek_tests::harness::proved::calls as proved;
use dibwunek_tests::reference::planner::TASK_BYTES;

/// What a byte or a word is changed to.
const VALUES: [u8; 7] = [0, 1, 16, 17, 33, 65, 255];
const BYTES: [u8; 8] = *b"0159 \n#-";
const WORDS: [u32; 12] = [0, 1, 2, 16, 17, 33, 65, 255, 256, 10_001, 1_000_001, u32::MAX];
/// A byte and a word of what is written before a call, so that one that must stay is seen to stay.
const BEFORE: u8 = 170;
const WORD_BEFORE: u32 = 0xaaaa_aaaa;

/// The answer of a call, and the bytes it leaves in a buffer of some length.
fn ran(room: usize, call: impl Fn(&mut [u8]) -> u32) -> (u32, Vec<u8>) {
    let mut out = vec![BEFORE; room];
    let answer = call(&mut out);
    (answer, out)
}

/// The answer of a call, and the line it leaves.
fn left(line: &[u32], call: impl Fn(&mut [u32]) -> u32) -> (u32, Vec<u32>) {
    let mut line = line.to_vec();
    let answer = call(&mut line);
    (answer, line)
}

fn sheets_agree(input: &Input, sheet: &[u8]) {
    for room in [TASK_BYTES * input.count, TASK_BYTES * input.count - 1, TASK_BYTES * input.count + 9] {
        let plans = ran(room, |out| plain::plan(sheet, out));
        assert_eq!(plans, ran(room, |out| proved::plan(sheet, out)), "plan, {}: {sheet:?}", input.name);
    }
    for length in [STATE, STATE - 1, STATE + 1] {
        let line = vec![WORD_BEFORE; length];
        let starts = left(&line, |line| plain::start(sheet, line));
        assert_eq!(starts, left(&line, |line| proved::start(sheet, line)), "start, {}: {sheet:?}", input.name);
    }
}

fn states_agree(input: &Input, line: &[u32]) {
    let name = &input.name;
    let idle = vec![0; input.count];
    let wrong = [vec![2; input.count], vec![0; input.count + 1]];
    for reports in [idle, input.reports.clone(), input.last_reports.clone()].into_iter().chain(wrong) {
        let ticks = left(line, |line| plain::tick(line, &reports));
        assert_eq!(ticks, left(line, |line| proved::tick(line, &reports)), "tick, {name}: {line:?}");
        for count in [1, input.ticks + 2] {
            let answer = plain::tick_many(line, &reports, count);
            assert_eq!(answer, proved::tick_many(line, &reports, count), "{count} ticks, {name}: {line:?}");
        }
    }
    for task in [0, input.count - 1, input.count] {
        let releases = left(line, |line| plain::release(line, task));
        assert_eq!(releases, left(line, |line| proved::release(line, task)), "release, {name}: {line:?}");
        let answer = plain::release_many(line, task, 2);
        assert_eq!(answer, proved::release_many(line, task, 2), "two releases, {name}: {line:?}");
    }
    for room in [2 * input.processors, 2 * input.processors + 2] {
        let boards = ran(room, |out| plain::board(line, out));
        assert_eq!(boards, ran(room, |out| proved::board(line, out)), "board, {name}: {line:?}");
        let boards = ran(room, |out| plain::board_many(line, out, 2));
        assert_eq!(boards, ran(room, |out| proved::board_many(line, out, 2)), "two boards, {name}: {line:?}");
    }
}

/// The items, one fewer of them, and the items with each one changed to each value.
fn changed<T: Copy>(items: &[T], values: &[T], tried: impl Fn(&[T])) {
    tried(items);
    tried(&items[..items.len() - 1]);
    let mut items = items.to_vec();
    for at in 0..items.len() {
        let before = items[at];
        for &value in values {
            items[at] = value;
            tried(&items);
        }
        items[at] = before;
    }
}

fn named<'a>(inputs: &'a [Input], names: &'a [&str]) -> impl Iterator<Item = &'a Input> {
    inputs.iter().filter(|input| names.contains(&input.name.as_str()))
}

pub fn check(inputs: &[Input]) {
    for input in inputs {
        sheets_agree(input, &input.sheet);
        if input.accepted {
            let lines = [&input.fresh, &input.alive, &input.late, &input.last];
            lines.into_iter().for_each(|line| states_agree(input, line));
            turns(input);
        }
    }
    for input in named(inputs, &["small", "low", "wide-full"]) {
        changed(&input.sheet, &VALUES, |sheet| sheets_agree(input, sheet));
        changed(&input.alive, &WORDS, |line| states_agree(input, line));
        changed(&input.last, &WORDS, |line| states_agree(input, line));
    }
}

/// The ticks that are measured as such switch and return.
fn turns(input: &Input) {
    let (switches, _) = left(&input.late, |line| proved::tick(line, &vec![0; input.count]));
    assert_eq!(switches, plain::SWITCHED, "{}", input.name);
    let (returns, _) = left(&input.last, |line| proved::tick(line, &input.last_reports));
    assert_eq!(returns, plain::RETURNED + plain::ACCEPTED, "{}", input.name);
}

/// The terms that are measured, and each of them wrong or at an end of its range.
const TERMS: [(u32, u32, u32); 11] = [
    (LEVEL, DEADLINE, PERCENTAGE),
    (0, DEADLINE, 100),
    (0, DEADLINE, 101),
    (2, DEADLINE, PERCENTAGE),
    (16, DEADLINE, 100),
    (17, DEADLINE, PERCENTAGE),
    (LEVEL, 0, PERCENTAGE),
    (LEVEL, 10_001, PERCENTAGE),
    (LEVEL, DEADLINE, 99),
    (LEVEL, DEADLINE, 400),
    (LEVEL, DEADLINE, 401),
];

fn imports_agree(name: &str, text: &[u8], room: usize, (level, deadline, percentage): (u32, u32, u32)) {
    let imports = ran(room, |out| plain::import(text, level, deadline, percentage, out));
    let proved = ran(room, |out| proved::import(text, level, deadline, percentage, out));
    assert_eq!(imports, proved, "import, {name}, {level} {deadline} {percentage}: {}", String::from_utf8_lossy(text));
}

pub fn check_imports(texts: &[Text]) {
    for Text { name, text, record, .. } in texts {
        let (answer, _) = ran(*record, |out| plain::import(text, LEVEL, DEADLINE, PERCENTAGE, out));
        assert_eq!(answer, plain::ACCEPTED, "import, {name}");
        for room in [0, record - 1, *record, record + 9] {
            TERMS.into_iter().for_each(|terms| imports_agree(name, text, room, terms));
        }
    }
    for Text { name, text, record, .. } in texts.iter().filter(|text| !text.growth) {
        changed(text, &BYTES, |text| imports_agree(name, text, *record, TERMS[0]));
    }
}
