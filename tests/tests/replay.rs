//! Whole lists of calls on the proved dispatcher, from fresh states, and their replays.
use dibwunek_tests::harness::boundary::start;
use dibwunek_tests::harness::counts::{hold, Counts};
use dibwunek_tests::harness::proved::calls::replay;
use dibwunek_tests::harness::proved::dispatching::Proved;
use dibwunek_tests::harness::suites::returns::returning_story;
use dibwunek_tests::harness::suites::{self, any_story, low_story, Subject};
use dibwunek_tests::makers::crafts::Kind;
use dibwunek_tests::makers::random::Random;
use dibwunek_tests::makers::sheets::plausible;
use dibwunek_tests::reference::answers::Reply;
use dibwunek_tests::reference::logs::{self, log_of};

const SUBJECT: Subject = Subject { dispatcher: &Proved, start };

#[test]
fn case_13() {
    suites::case_13(SUBJECT);
}

#[test]
fn nominal_lists() {
    suites::nominal_lists(SUBJECT, 200);
}

#[test]
fn overload_lists() {
    suites::overload_lists(SUBJECT, 200);
}

#[test]
fn wild_lists() {
    suites::wild_lists(SUBJECT, 200);
}

#[test]
fn kept_lists() {
    suites::kept_lists(SUBJECT, 200);
}

#[test]
fn exact_kept_lists() {
    suites::exact_kept_lists(SUBJECT, 300);
}

#[test]
fn exact_lists() {
    suites::exact_lists(SUBJECT, 300);
}

#[test]
fn forced_switches() {
    suites::forced_switches(SUBJECT, 40);
}

/// Holds the proved Replay of a sheet and a log to the independent one: the bytes, those behind them, and that nothing is
/// written where they don't fit.
fn check(random: &mut Random, sheet: &[u8], log: &[u8], counts: &mut Counts) {
    let on = || format!("the sheet {sheet:?} and the log {log:?}");
    let expected = logs::replay(sheet, log);
    let size = expected.bytes.len();
    let behind = *random.pick(&[0, 0, 1, 7, 100]);
    let before = random.bytes(size + behind);
    let mut out = before.clone();
    hold(&replay(sheet, log, &mut out), &size, on);
    hold(&&out[..size], &&expected.bytes[..], on);
    assert!(out[size..] == before[size..], "bytes behind the replay changed: {}", on());
    let room = *random.pick(&[0, 1, size / 2, size - 1]);
    let mut short = before[..room].to_vec();
    hold(&replay(sheet, log, &mut short), &0, on);
    assert!(short == before[..room], "a replay was written that does not fit: {}", on());
    counts.add(format!("Start {}", expected.start.number()));
    counts.add_many("calls", expected.replies.len());
    counts.add(match expected.replies.iter().any(|reply| matches!(reply, Reply::Switched(_))) {
        true => "runs with a switch",
        false => "runs without",
    });
    if expected.replies.contains(&Reply::Returned) {
        counts.add("runs with a return");
    }
    for reply in expected.replies.iter().filter(|reply| reply.number() != 0) {
        counts.add(reply.number());
    }
}

const KINDS: [Kind; 5] = [Kind::Nominal, Kind::Overload, Kind::Overload, Kind::Beyond, Kind::Endless];

#[test]
fn replays_of_random_lists() {
    let mut random = Random::of_test("replays");
    let mut counts = Counts::new("replays of random lists");
    for round in 0..600 {
        let story = match round % 3 {
            0 => any_story(&mut random, &KINDS, true, 6),
            1 => low_story(&mut random, 6),
            _ => returning_story(&mut random, 6),
        };
        check(&mut random, &story.sheet, &log_of(&story.calls), &mut counts);
    }
    assert_eq!(counts.of("Start 0"), 600);
    let names = ["runs with a switch", "runs with a return", "runs without", "11", "12", "13", "14", "15"];
    counts.close(names, 40);
}

/// Cut short, with bytes changed, put in and behind, with calls of another kind; and over sheets that are refused.
fn damaged(random: &mut Random, log: &mut Vec<u8>) {
    let at = random.within(0..=log.len() - 1);
    let few = random.within(1..=9);
    match random.within(0..=5) {
        0 => log.truncate(at),
        1 => log[at] ^= 1 << random.within(0..=7),
        2 => log.insert(at, random.word() as u8),
        3 => log.extend(random.bytes(few)),
        4 => log[at] = *random.pick(&[0, 1, 2, 255]),
        _ => drop(log.drain(..at)),
    }
}

#[test]
fn replays_of_damaged_logs() {
    let mut random = Random::of_test("damaged logs");
    let mut counts = Counts::new("replays of damaged logs");
    for _ in 0..600 {
        let mut story = any_story(&mut random, &KINDS, true, 4);
        let mut log = log_of(&story.calls);
        for _ in 0..random.within(1..=4) {
            if !log.is_empty() {
                damaged(&mut random, &mut log);
            }
        }
        match random.within(0..=9) {
            0 => story.sheet = plausible(&mut random),
            1 => {
                let at = random.within(0..=story.sheet.len() - 1);
                story.sheet[at] ^= 1 << random.within(0..=7);
            }
            2 => {
                let length = random.within(0..=200);
                log = random.bytes(length);
            }
            _ => {}
        }
        check(&mut random, &story.sheet, &log, &mut counts);
    }
    let starts = ["Start 0", "Start 3", "Start 4", "Start 5"];
    let runs = ["runs with a switch", "runs with a return", "runs without", "11", "13", "14", "15"];
    counts.close(starts.into_iter().chain(runs), 5);
}
