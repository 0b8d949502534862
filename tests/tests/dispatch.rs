//! The proved dispatcher beside the independent one on random states, sound and not, and on lines that are none: answers,
//! whole lines and boards agree, and a refused call leaves the line and the buffer.
use dibwunek_tests::harness::boundary::{bounded, of_words, start_on, to_words, STATE};
use dibwunek_tests::harness::comparison::{each_on, one_of_each, reports, walk, Comparison};
use dibwunek_tests::harness::counts::hold;
use dibwunek_tests::harness::proved::calls::state_words;
use dibwunek_tests::harness::proved::starting;
use dibwunek_tests::makers::random::Random;
use dibwunek_tests::makers::sheets::CASE_14;
use dibwunek_tests::makers::states::{keeping, sound, unsound, with_ones, FAULTS};
use dibwunek_tests::reference::answers::Reply;

/// What Release, Tick and Board answer on a sound state, but for returns, which are rarer.
const CALLS: [&str; 10] = ["released", "ran", "switched", "board", "11", "12", "13", "14", "15", "16"];

const OF_KEPT: [&str; 5] = [
    "kept tasks released when critical",
    "boards with a kept task's nodes",
    "jobs kept over a switch on as many processors",
    "jobs kept over a switch on more or fewer",
    "jobs dropped by a switch",
];

const OF_RETURNS: [&str; 2] = ["returned", "kept jobs alive over a return"];

#[test]
fn sound_states() {
    let mut random = Random::of_test("sound states");
    let mut comparison = Comparison::new("sound states");
    for _ in 0..6_000 {
        let state = sound(&mut random);
        one_of_each(&mut random, &state, &mut comparison);
    }
    comparison.counts.ask(OF_RETURNS, 50);
    comparison.counts.close(CALLS, 200);
}

#[test]
fn kept_and_dropped_tasks() {
    let mut random = Random::of_test("kept and dropped tasks");
    let mut comparison = Comparison::new("kept and dropped tasks");
    for _ in 0..1_500 {
        let state = keeping(&mut random);
        let line = to_words(&state);
        for task in 0..usize::from(state.count) {
            comparison.release(&line, task);
        }
        comparison.tick(&line, &vec![0; state.count.into()]);
        comparison.tick(&line, &reports(&mut random, &state));
        comparison.board(&line, &vec![7; 2 * usize::from(state.processors)]);
    }
    assert_eq!(comparison.counts.of("10"), 0);
    comparison.counts.ask(OF_RETURNS, 50);
    comparison.counts.close(OF_KEPT.into_iter().chain(["released", "ran", "switched", "board", "12", "13", "15"]), 100);
}

#[test]
fn every_task_of_a_state() {
    let mut random = Random::of_test("every task");
    let mut comparison = Comparison::new("every task of a state");
    for _ in 0..150 {
        let state = sound(&mut random);
        let line = to_words(&state);
        let count = usize::from(state.count);
        for task in 0..=17 {
            comparison.release(&line, task);
        }
        let idle = vec![0; count];
        comparison.tick(&line, &idle);
        for task in 0..count {
            for node in 0..32 {
                let mut reports = idle.clone();
                reports[task] = 1 << node;
                comparison.tick(&line, &reports);
            }
        }
        for length in 0..=18 {
            comparison.tick(&line, &vec![0; length]);
        }
        for length in 0..=130 {
            comparison.board(&line, &vec![7; length]);
        }
    }
    comparison.counts.ask(["returned"], 5);
    comparison.counts.close(CALLS, 50);
}

#[test]
fn states_unsound_in_one_way() {
    let mut random = Random::of_test("unsound states");
    let mut comparison = Comparison::new("states unsound in one way");
    for fault in FAULTS {
        for _ in 0..300 {
            let state = unsound(&mut random, fault);
            one_of_each(&mut random, &state, &mut comparison);
        }
    }
    comparison.counts.close(["10"], 3 * 300 * FAULTS.len());
}

/// Any bit of a state's words may be flipped; some leave no state.
fn flipped(random: &mut Random, line: &[u32]) -> Vec<u32> {
    let mut line = line.to_vec();
    let of_tasks = 3 + 41 * (line[1] as usize).min(16);
    let last = *random.pick(&[2, 45, of_tasks - 1, line.len() - 1]);
    let at = random.within(0..=last);
    let bits = *random.pick(&[1, 7, 31]);
    line[at] ^= 1 << random.within(0..=bits);
    line
}

#[test]
fn states_with_bits_flipped() {
    let mut random = Random::of_test("bits of states");
    let mut comparison = Comparison::new("states with bits flipped");
    for _ in 0..6_000 {
        let state = sound(&mut random);
        let mut line = to_words(&state);
        for _ in 0..random.within(1..=3) {
            line = flipped(&mut random, &line);
        }
        let seen = of_words(&line).unwrap_or(state);
        each_on(&mut random, &line, &seen, &mut comparison);
    }
    comparison.counts.ask(["returned"], 50);
    comparison.counts.close(["released", "ran", "switched", "board", "10", "100"], 80);
}

#[test]
fn words_that_no_field_holds() {
    let mut random = Random::of_test("words too large");
    let mut comparison = Comparison::new("words that no field holds");
    let (bytes, marks) = bounded();
    let most = bytes.iter().map(|&at| (at, 255)).chain(marks.iter().map(|&at| (at, 1)));
    for (at, most) in most.clone().cycle().take(4 * most.count()) {
        let fault = *random.pick(&FAULTS);
        let state = if random.once_in(2) { sound(&mut random) } else { unsound(&mut random, fault) };
        let mut line = to_words(&state);
        line[at] = *random.pick(&[most + 1, most + 2, most + 257, 1 << 16, 1 << 31, u32::MAX]);
        each_on(&mut random, &line, &state, &mut comparison);
    }
    let all = 4 * 3 * (bytes.len() + marks.len());
    assert_eq!(comparison.counts.of("100"), all);
    comparison.counts.close(["100"], all);
}

#[test]
fn every_word_at_its_largest() {
    let mut random = Random::of_test("largest words");
    let mut comparison = Comparison::new("every word at its largest");
    let (bytes, marks) = bounded();
    for at in 0..STATE {
        let state = sound(&mut random);
        let mut line = to_words(&state);
        line[at] = match (bytes.contains(&at), marks.contains(&at)) {
            (true, _) => 255,
            (_, true) => 1,
            _ => u32::MAX,
        };
        each_on(&mut random, &line, &state, &mut comparison);
    }
    assert_eq!(comparison.counts.of("100"), 0);
    comparison.counts.close(["released", "ran", "board", "10"], 20);
}

#[test]
fn lines_of_every_other_length() {
    assert_eq!(state_words(), STATE);
    let mut random = Random::of_test("lengths of lines");
    let mut comparison = Comparison::new("lines of every other length");
    for length in (0..=2 * STATE).filter(|&length| length != STATE) {
        let state = sound(&mut random);
        let mut line = to_words(&state);
        line.resize(length, 0);
        each_on(&mut random, &line, &state, &mut comparison);
        let started = starting::start_on(&CASE_14, &line);
        hold(&started, &start_on(&CASE_14, &line), || format!("Start on {length} words"));
        assert_eq!(started, (Reply::Refused(100, 255), line));
    }
    comparison.counts.close(["100"], 3 * 2 * STATE);
}

#[test]
fn noise_beyond_the_tasks_makes_no_state_unsound() {
    let mut random = Random::of_test("noise in states");
    let mut comparison = Comparison::new("noise beyond the tasks");
    for _ in 0..500 {
        let state = with_ones(sound(&mut random));
        one_of_each(&mut random, &state, &mut comparison);
    }
    assert_eq!(comparison.counts.of("10"), 0);
    comparison.counts.ask(["returned"], 10);
    comparison.counts.close(["released", "ran", "switched", "board"], 20);
}

#[test]
fn walks() {
    let mut random = Random::of_test("walks");
    let mut comparison = Comparison::new("walks");
    for _ in 0..400 {
        let state = if random.once_in(2) { sound(&mut random) } else { keeping(&mut random) };
        walk(&mut random, to_words(&state), 60, &mut comparison);
    }
    assert_eq!(comparison.counts.of("10"), 0);
    comparison.counts.ask(OF_KEPT, 20);
    comparison.counts.ask(OF_RETURNS, 10);
    comparison.counts.close(CALLS, 50);
}
