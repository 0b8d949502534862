//! The printing program, run as a process: what it writes is what the specification says of its input.
use dibwunek_tests::harness::counts::{hold, Counts};
use dibwunek_tests::makers::random::Random;
use dibwunek_tests::makers::sheets::{plausible, valid, Draft, CASE_14};
use dibwunek_tests::makers::tight;
use dibwunek_tests::reference::planner::{printed, PRINTER_INPUT};
use dibwunek_tests::reference::reader::{Figures, Form, Level, Sheet, Task};
use std::io::{ErrorKind, Write};
use std::path::Path;
use std::process::{Command, Stdio};
use std::time::Duration;

/// What the program writes, given these pieces on its standard input, with a pause between them.
fn run(pieces: &[&[u8]]) -> String {
    let root = Path::new(env!("CARGO_MANIFEST_DIR")).parent().expect("the tests stand in the repository");
    let program = root.join("target/bin/plan_printer");
    let mut child = Command::new(&program)
        .stdin(Stdio::piped())
        .stdout(Stdio::piped())
        .spawn()
        .unwrap_or_else(|error| panic!("{}: {error}: run `./build plan_printer` first", program.display()));
    let mut input = child.stdin.take().expect("the input is a pipe");
    for (place, piece) in pieces.iter().enumerate() {
        if place > 0 {
            std::thread::sleep(Duration::from_millis(3));
        }
        match input.write_all(piece) {
            // It need not read what comes after the sheet.
            Err(error) if error.kind() != ErrorKind::BrokenPipe => panic!("the program's input: {error}"),
            _ => {}
        }
    }
    drop(input);
    let output = child.wait_with_output().expect("the program's output");
    String::from_utf8(output.stdout).expect("the program writes ASCII")
}

/// Compares what is printed with what the specification gives.
fn check(input: &[u8], counts: &mut Counts) {
    let expected = printed(input);
    hold(&run(&[input]), &expected, || format!("the {} bytes {input:?}", input.len()));
    counts.add(expected.strip_prefix("refused ").map_or("planned", |rest| rest.split(' ').next().unwrap_or("")));
}

#[test]
fn case_14() {
    assert_eq!(run(&[&CASE_14]), "0 0 1 0 2 9 0\n1 1 2 2 6 7 1\n2 3 5 8 0 0 0\n");
    let with_processors = |processors| [&[processors], &CASE_14[1..]].concat();
    assert_eq!(run(&[&with_processors(7)]), "refused 8 255\n");
    assert_eq!(run(&[&with_processors(3)]), "refused 7 1\n");
    assert_eq!(run(&[&CASE_14[..61]]), "refused 2 2\n");
    assert_eq!(run(&[]), "refused 1 255\n");
}

#[test]
fn whole_sheets() {
    let mut random = Random::of_test("printed sheets");
    let mut counts = Counts::new("printed sheets");
    for count in (1..=16).cycle().take(160) {
        let mut sheet = tight::sheet(&mut random, count);
        if random.once_in(2) {
            sheet.processors = random.within(1..=64) as u8;
        }
        check(&Draft::of(&sheet).bytes(), &mut counts);
        check(&Draft::of(&tight::mostly_low(&mut random)).bytes(), &mut counts);
    }
    counts.close(["planned", "7", "8"], 5);
}

/// With 4 processors each, and all of them used: 4 times 3 of the work beyond LN is run in V, and 3 is left.
#[test]
fn sixteen_tasks_with_v_near_a_million() {
    let figures = Figures { d: 999_989, cn: 1_000_000, co: 1_000_000, ln: 999_985, lo: 999_985 };
    let task = Task { level: Level::High, form: Form::Wide, figures, masks: vec![0] };
    let sheet = Sheet { processors: 64, tasks: vec![task; 16] };
    let line = |i: usize| format!("{i} {0} 4 {0} 4 999988 3\n", 4 * i);
    assert_eq!(run(&[&Draft::of(&sheet).bytes()]), (0..16).map(line).collect::<String>());
}

#[test]
fn damaged_sheets() {
    let mut random = Random::of_test("printed damaged sheets");
    let mut counts = Counts::new("printed damaged sheets");
    for count in (1..=16).cycle().take(160) {
        let mut sheet = Draft::of(&tight::sheet(&mut random, count)).bytes();
        let at = random.within(0..=sheet.len() - 1);
        sheet[at] ^= 1 << random.within(0..=7);
        check(&sheet, &mut counts);
        check(&plausible(&mut random), &mut counts);
        check(&Draft::of(&valid(&mut random)).bytes(), &mut counts);
    }
    counts.close(["2", "3", "4", "5", "7"], 5);
}

/// Lengths around 4,096 bytes: a sheet whose last record, too long by far, ends with them, and a sheet with bytes after
/// it. The first is refused for that record (3), and for its directory (2) where fewer bytes or more are taken.
#[test]
fn longer_than_a_sheet_may_be() {
    let mut random = Random::of_test("printed long inputs");
    let mut counts = Counts::new("printed long inputs");
    for count in (1..=16).chain(1..=16) {
        let mut draft = Draft::of(&tight::sheet(&mut random, count));
        for more in [0, 1, 2, 100, 4_096, 70_000] {
            let bytes = draft.bytes();
            let length = (PRINTER_INPUT + more).saturating_sub(bytes.len());
            check(&[bytes, random.bytes(length)].concat(), &mut counts);
        }
        let mut last = draft.records.pop().expect("there is a task");
        last.resize(PRINTER_INPUT - draft.bytes().len() - 4, 0);
        draft.records.push(last);
        let sheet = draft.bytes();
        assert_eq!(sheet.len(), PRINTER_INPUT);
        assert_eq!(printed(&sheet), format!("refused 3 {}\n", count - 1));
        for more in [0, 1, 2, 100, 4_096, 70_000] {
            check(&[&sheet[..], &random.bytes(more)].concat(), &mut counts);
        }
        check(&sheet[..PRINTER_INPUT - 1], &mut counts);
    }
    counts.close(["2", "3"], 100);
}

#[test]
fn in_pieces() {
    let mut random = Random::of_test("printed in pieces");
    for count in 1..=16 {
        let sheet = Draft::of(&tight::sheet(&mut random, count)).bytes();
        let mut cuts: Vec<usize> = (0..4).map(|_| random.within(0..=sheet.len())).collect();
        cuts.extend([0, 1, sheet.len()]);
        cuts.sort();
        let pieces: Vec<&[u8]> = cuts.windows(2).map(|cut| &sheet[cut[0]..cut[1]]).collect();
        hold(&run(&pieces), &printed(&sheet), || format!("{sheet:?} cut at {cuts:?}"));
    }
}
