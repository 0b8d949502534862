//! The way back from the critical state: lists of calls from the proved Start in which it comes many times, and critical
//! states by hand. Lists are held to S10.7 to S10.13, states to the independent dispatcher and to S10.12.
use dibwunek_tests::harness::boundary::to_words;
use dibwunek_tests::harness::comparison::Comparison;
use dibwunek_tests::harness::proved::calls;
use dibwunek_tests::harness::proved::dispatching::Proved;
use dibwunek_tests::harness::proved::starting;
use dibwunek_tests::harness::returns::Step;
use dibwunek_tests::harness::suites::{returns, Subject};
use dibwunek_tests::makers::random::Random;
use dibwunek_tests::makers::sheets::Draft;
use dibwunek_tests::makers::states::{not_running, report, unsound, with_last_nodes, without_high_jobs, FAULTS};
use dibwunek_tests::reference::answers::Reply;
use dibwunek_tests::reference::dispatcher::{Mode, State};
use dibwunek_tests::reference::reader::{Figures, Form, Level, Sheet, Task};

const SUBJECT: Subject = Subject { dispatcher: &Proved, start: starting::start };

#[test]
fn return_lists() {
    returns::return_lists(SUBJECT, 2_000);
}

#[test]
fn exact_kept_returns() {
    returns::exact_kept_returns(SUBJECT, 300);
}

#[test]
fn forced_returns() {
    returns::forced_returns(SUBJECT, 40);
}

#[test]
fn late_returns() {
    returns::late_returns(SUBJECT, 300);
}

/// The word of a tick that returned: 0 and 255, and 131,072.
const RETURNED: u32 = 131_072 + 256 * 255;

/// A tick of a state on both dispatchers. One that is accepted keeps to S10.12, and one that returned has its word.
fn ticked(state: &State, reports: &[u32], comparison: &mut Comparison) -> Reply {
    let line = to_words(state);
    let (reply, after) = comparison.tick(&line, reports);
    if reply.number() == 0 {
        Step::new(reports, reply, &line, &after).keeps_to_return(&Proved, || format!("{reports:?} of {state:?}"));
    }
    assert_eq!(calls::tick(&mut line.clone(), reports) == RETURNED, reply == Reply::Returned);
    reply
}

/// Reports of all running nodes of high tasks, and of some of the others.
fn last_reports(random: &mut Random, state: &State) -> Vec<u32> {
    let all = |task: usize| state.running(task).into_iter().map(|v| 1 << v).sum();
    let of_task = |task: usize| if state.entries[task].is_high() { all(task) } else { report(random, state, task) };
    (0..usize::from(state.count)).map(of_task).collect()
}

/// Each returns with its next tick, whatever low tasks report; released before it, a high task whose job goes on keeps it
/// critical.
#[test]
fn critical_states_without_high_jobs() {
    let mut random = Random::of_test("critical states without high jobs");
    let mut comparison = Comparison::new("critical states without high jobs");
    for _ in 0..3_000 {
        let state = without_high_jobs(&mut random);
        let reports = last_reports(&mut random, &state);
        assert_eq!(ticked(&state, &reports, &mut comparison), Reply::Returned);
        let high = (0..usize::from(state.count)).find(|&task| state.entries[task].is_high());
        if let Some(Ok(released)) = high.map(|task| state.release(task)) {
            comparison.counts.add("released before the tick");
            assert_eq!(ticked(&released, &vec![0; state.count.into()], &mut comparison), Reply::Done);
        }
    }
    let names = ["returns with no high job before", "kept jobs alive over a return", "released before the tick"];
    comparison.counts.ask(["other low jobs alive over a return", "low jobs that ended with a return"], 100);
    comparison.counts.close(names, 300);
}

/// Each returns if the reports name all nodes that are left of high jobs, and stays critical if they leave one out.
#[test]
fn critical_states_whose_high_jobs_end() {
    let mut random = Random::of_test("critical states whose high jobs end");
    let mut comparison = Comparison::new("critical states whose high jobs end");
    for _ in 0..3_000 {
        let state = with_last_nodes(&mut random);
        let mut reports = last_reports(&mut random, &state);
        assert_eq!(ticked(&state, &reports, &mut comparison), Reply::Returned);
        let task = *random.pick(&state.high_jobs());
        reports[task] &= reports[task] - 1;
        assert_eq!(ticked(&state, &reports, &mut comparison), Reply::Done);
    }
    let names = ["returns with the end of a high job", "returns with the end of several high jobs", "ran"];
    comparison.counts.ask(["kept jobs alive over a return", "other low jobs alive over a return"], 100);
    comparison.counts.close(names, 500);
}

/// Kept jobs go on over the return, and the others are not alive.
#[test]
fn critical_states_with_kept_jobs_alone() {
    let mut random = Random::of_test("critical states with kept jobs alone");
    let mut comparison = Comparison::new("critical states with kept jobs alone");
    for _ in 0..3_000 {
        let mut state = without_high_jobs(&mut random);
        for entry in &mut state.entries[..usize::from(state.count)] {
            entry.alive = entry.alive && entry.is_kept();
        }
        let idle = vec![0; state.count.into()];
        assert_eq!(ticked(&state, &idle, &mut comparison), Reply::Returned);
        let reports = last_reports(&mut random, &state);
        assert_eq!(ticked(&state, &reports, &mut comparison), Reply::Returned);
    }
    assert_eq!(comparison.counts.of("other low jobs alive over a return"), 0);
    comparison.counts.ask(["low jobs that ended with a return"], 100);
    comparison.counts.close(["returned", "kept jobs alive over a return"], 1_000);
}

/// 10, 14 and 15 on critical states in which an accepted tick would return: the line stays.
#[test]
fn refused_ticks_do_not_return() {
    let mut random = Random::of_test("refused ticks");
    let mut comparison = Comparison::new("refused ticks");
    for _ in 0..3_000 {
        let state = if random.once_in(2) { without_high_jobs(&mut random) } else { with_last_nodes(&mut random) };
        let count = usize::from(state.count);
        let reports = last_reports(&mut random, &state);
        let mut wrong_count = reports.clone();
        wrong_count.resize(*random.pick(&[0, count - 1, count + 1, 17]), 0);
        assert_eq!(ticked(&state, &wrong_count, &mut comparison), Reply::Refused(14, 255));
        let task = random.within(0..=count - 1);
        if let Some(node) = not_running(&mut random, &state, task) {
            let mut not_running = reports.clone();
            not_running[task] |= node;
            assert_eq!(ticked(&state, &not_running, &mut comparison), Reply::Refused(15, task as u8));
        }
        let fault = *random.pick(&FAULTS);
        let state = State { mode: Mode::Critical, ..unsound(&mut random, fault) };
        let idle = vec![0; state.count.into()];
        assert_eq!(ticked(&state, &idle, &mut comparison), Reply::Refused(10, 255));
    }
    assert_eq!(comparison.counts.of("returned"), 0);
    comparison.counts.close(["10", "14", "15"], 2_000);
}

/// High, D 5, shares (1, 2), V 2. Its job of the lengths 2, 1, 1, 2 ends in tick 5.
fn overrunning() -> Task {
    let figures = Figures { d: 5, cn: 2, co: 6, ln: 1, lo: 2 };
    Task { level: Level::High, form: Form::Narrow, figures, masks: vec![0; 4] }
}

/// High, D 10, shares (2, 2), V 10. Its job of the lengths 3, 3, 7 ends in tick 10 in either state.
fn longest() -> Task {
    let figures = Figures { d: 10, cn: 13, co: 13, ln: 7, lo: 7 };
    Task { level: Level::High, form: Form::Narrow, figures, masks: vec![0; 3] }
}

/// Low, D 5, share 2, not kept on five processors.
fn low() -> Task {
    let figures = Figures { d: 5, cn: 9, co: 9, ln: 1, lo: 1 };
    Task { level: Level::Low, form: Form::Narrow, figures, masks: vec![0] }
}

/// The line that a call leaves, which must answer so.
fn left((reply, line): (Reply, Vec<u32>), expected: Reply) -> Vec<u32> {
    assert_eq!(reply, expected);
    line
}

/// The second task is released just before the tick with which the first one turns the state critical, and lasts to its tick
/// D. So the return is the ninth tick after the switch, one tick before the longest deadline.
#[test]
fn a_return_as_late_as_may_be() {
    let sheet = Sheet { processors: 5, tasks: vec![overrunning(), longest(), low()] };
    let (reply, mut line) = starting::start(&Draft::of(&sheet).bytes());
    assert_eq!(reply, Reply::Done);
    let mut comparison = Comparison::new("a return as late as may be");
    line = left(comparison.release(&line, 0), Reply::Done);
    line = left(comparison.release(&line, 2), Reply::Done);
    line = left(comparison.tick(&line, &[0, 0, 0]), Reply::Done);
    line = left(comparison.release(&line, 1), Reply::Done);
    line = left(comparison.tick(&line, &[0b1, 0, 0]), Reply::Switched(0));
    let since: [[u32; 2]; 9] = [[0b110, 0], [0, 0b11], [0b1000, 0], [0, 0], [0, 0], [0, 0], [0, 0], [0, 0], [0, 0b100]];
    for (tick, [first, second]) in (1..).zip(since) {
        line = left(comparison.release(&line, 2), Reply::Refused(12, 2));
        let expected = if tick == 9 { Reply::Returned } else { Reply::Done };
        line = left(comparison.tick(&line, &[first, second, 0]), expected);
    }
    for task in 0..3 {
        line = left(comparison.release(&line, task), Reply::Done);
    }
    comparison.counts.close(["switched", "returned"], 1);
}
