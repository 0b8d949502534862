//! A task seen by itself (S10.14, S10.15): pairs of call lists over two sheets that have tasks in common, on the proved
//! calls, and dispatchers with a mistake that such pairs must show.
use dibwunek_tests::harness::boundary::{self, Dispatcher};
use dibwunek_tests::harness::isolation::{views, View};
use dibwunek_tests::harness::mistaken::{Mistaken, MISTAKES};
use dibwunek_tests::harness::proved::dispatching::Proved;
use dibwunek_tests::harness::proved::starting;
use dibwunek_tests::harness::suites::isolation::{self, Held};
use dibwunek_tests::harness::suites::{three_nodes, Subject};
use dibwunek_tests::makers::random::seed;
use dibwunek_tests::makers::sheets::{Draft, CASE_14};
use dibwunek_tests::reference::answers::Reply;

const SUBJECT: Subject = Subject { dispatcher: &Proved, start: starting::start };

fn holds(held: Held) {
    if let Err(caught) = held {
        panic!("seed {}: {caught:?}", seed());
    }
}

#[test]
fn any_pairs() {
    holds(isolation::any_pairs(SUBJECT, 1_200));
}

#[test]
fn driven_pairs() {
    holds(isolation::driven_pairs(SUBJECT, 1_200));
}

#[test]
fn alone_and_full() {
    holds(isolation::alone_and_full(SUBJECT, 1_200));
}

/// Each family shows each mistake, but for those of a switch where nothing switches.
#[test]
fn mistakes_are_caught() {
    let families: [fn(Subject, usize) -> Held; 3] =
        [isolation::any_pairs, isolation::driven_pairs, isolation::alone_and_full];
    for mistake in MISTAKES {
        let dispatcher = Mistaken(mistake);
        let subject = Subject { dispatcher: &dispatcher, start: boundary::start };
        for family in &families[..if mistake.is_of_switch() { 2 } else { 3 }] {
            let caught = family(subject, 500).expect_err("a mistake is caught");
            println!("{mistake:?} is caught after {} pairs, {}", caught.after, caught.unlike.when);
        }
    }
}

/// A list of calls on the proved dispatcher, each of which must answer as expected.
struct List {
    line: Vec<u32>,
}

impl List {
    fn of(sheet: &[u8]) -> List {
        let (reply, line) = starting::start(sheet);
        assert_eq!(reply, Reply::Done);
        List { line }
    }

    fn release(&mut self, task: usize, expected: Reply) {
        let (reply, next) = Proved.release(&self.line, task);
        assert_eq!(reply, expected, "Release({task})");
        self.line = next;
    }

    fn tick(&mut self, reports: &[u32], expected: Reply) {
        let (reply, next) = Proved.tick(&self.line, reports);
        assert_eq!(reply, expected, "Tick({reports:?})");
        self.line = next;
    }

    fn view(&self, task: usize) -> View {
        views(&Proved, &self.line, &[task]).remove(0)
    }
}

/// A of S11 with three nodes of the lengths 4, 6, 3, alone on two processors and in place of A in case 14. With tick 9 its
/// second processor comes, and with tick 12 its job ends. B's job comes and goes in between, and E's is dropped.
#[test]
fn three_nodes_alone_and_in_case_14() {
    let mut alone = List::of(&Draft { processors: 2, records: vec![three_nodes()] }.bytes());
    let mut full = List::of(&Draft::cut(&CASE_14).with_record(0, three_nodes()).bytes());
    alone.release(0, Reply::Done);
    full.release(2, Reply::Done);
    full.release(0, Reply::Done);
    let nodes: [&[u8]; 12] = [&[0], &[0], &[0], &[0], &[1], &[1], &[1], &[1], &[1], &[1, 2], &[2], &[2]];
    for (tick, running) in (1..).zip(nodes) {
        let age = tick - 1;
        let ended = if tick > 10 { 0b11 } else { u32::from(tick > 4) };
        let expected = View { running: running.to_vec(), ended, alive: 1, age };
        assert_eq!([alone.view(0), full.view(0)], [expected.clone(), expected], "before tick {tick}");
        alone.release(1, Reply::Refused(11, 255));
        match tick {
            4 => full.release(1, Reply::Done),
            10 => full.release(2, Reply::Refused(12, 2)),
            _ => full.tick(&[0, 0b10, 0], Reply::Refused(15, 1)),
        }
        let report = [0, 0, 0, 0b1, 0, 0, 0, 0, 0, 0b10, 0, 0b100][tick as usize - 1];
        let expected = match tick {
            9 => Reply::Switched(0),
            12 => Reply::Returned,
            _ => Reply::Done,
        };
        alone.tick(&[report], expected);
        full.tick(&[report, u32::from(tick == 6), 0], expected);
    }
    let expected = View { running: vec![], ended: 0b111, alive: 0, age: 12 };
    assert_eq!([alone.view(0), full.view(0)], [expected.clone(), expected]);
}

/// E of S11 alone on five processors, where it is kept, and in case 14, where it is not: alike until B's tick V.
#[test]
fn a_low_task_alone_and_in_case_14() {
    let mut alone = List::of(&Draft { processors: 5, records: vec![CASE_14[46..].to_vec()] }.bytes());
    let mut full = List::of(&CASE_14);
    alone.release(0, Reply::Done);
    full.release(1, Reply::Done);
    full.release(2, Reply::Done);
    for tick in 1..=7 {
        let expected = View { running: vec![0], ended: 0, alive: 1, age: tick - 1 };
        assert_eq!([alone.view(0), full.view(2)], [expected.clone(), expected]);
        alone.tick(&[0], Reply::Done);
        full.tick(&[0; 3], if tick == 7 { Reply::Switched(1) } else { Reply::Done });
    }
    let [goes_on, dropped] =
        [(vec![0], 1), (vec![], 0)].map(|(running, alive)| View { running, ended: 0, alive, age: 7 });
    assert_eq!([alone.view(0), full.view(2)], [goes_on, dropped]);
}
