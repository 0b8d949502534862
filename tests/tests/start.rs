//! The proved Start beside the independent one: the answer and every word of the line agree.
use dibwunek_tests::harness::agreement::starts_agree;
use dibwunek_tests::harness::boundary::{self, STATE, UNWRITTEN};
use dibwunek_tests::harness::counts::{hold, Counts};
use dibwunek_tests::harness::proved::dispatching::Proved;
use dibwunek_tests::harness::proved::starting;
use dibwunek_tests::harness::suites::{self, Subject};
use dibwunek_tests::makers::random::Random;
use dibwunek_tests::makers::sheets::{plausible, Draft, CASE_14};
use dibwunek_tests::makers::tight;
use dibwunek_tests::reference::answers::Reply;

fn check(sheet: &[u8], counts: &mut Counts) {
    counts.add(starts_agree(sheet).number());
}

#[test]
fn case_14() {
    let mut counts = Counts::new("Start of case 14");
    check(&CASE_14, &mut counts);
    assert_eq!(starting::start(&CASE_14).0, Reply::Done);
    let seven = [&[7], &CASE_14[1..]].concat();
    assert_eq!(starting::start(&seven), (Reply::Refused(8, 255), vec![UNWRITTEN; STATE]));
}

/// Whatever stood in the line: words that are no state, and the state of another sheet.
#[test]
fn a_refused_start_leaves_the_line() {
    let mut random = Random::of_test("refused starts");
    let mut counts = Counts::new("refused starts");
    let (_, fresh) = starting::start(&CASE_14);
    for _ in 0..2_000 {
        let mut line = fresh.clone();
        for _ in 0..random.within(0..=STATE) {
            let at = random.within(0..=STATE - 1);
            line[at] = random.word() as u32;
        }
        let mut sheet = plausible(&mut random);
        if random.once_in(2) {
            sheet = Draft::of(&tight::sheet(&mut random, 3)).bytes();
            let at = random.within(0..=sheet.len() - 1);
            sheet[at] ^= 1 << random.within(0..=7);
        }
        let started = starting::start_on(&sheet, &line);
        hold(&started, &boundary::start_on(&sheet, &line), || format!("the sheet {sheet:?}"));
        let (reply, after) = started;
        assert!((reply == Reply::Done) != (after == line), "the sheet {sheet:?}");
        counts.add(reply.number());
    }
    counts.close(0..=8, 2);
}

#[test]
fn whole_and_damaged_sheets() {
    let mut random = Random::of_test("started sheets");
    let mut counts = Counts::new("started sheets");
    for count in (1..=16).cycle().take(800) {
        let mut bytes = Draft::of(&tight::with_graphs(&mut random, count)).bytes();
        check(&bytes, &mut counts);
        let at = random.within(0..=bytes.len() - 1);
        bytes[at] ^= 1 << random.within(0..=7);
        check(&bytes, &mut counts);
        check(&plausible(&mut random), &mut counts);
        check(&Draft::of(&tight::tied(&mut random)).bytes(), &mut counts);
        check(&Draft::of(&tight::mostly_low(&mut random)).bytes(), &mut counts);
    }
    counts.close(0..=8, 4);
}

#[test]
fn lists_from_the_proved_start() {
    let subject = Subject { dispatcher: &Proved, start: starting::start };
    suites::case_13(subject);
    suites::overload_lists(subject, 100);
    suites::wild_lists(subject, 100);
    suites::kept_lists(subject, 100);
    suites::exact_kept_lists(subject, 100);
}
