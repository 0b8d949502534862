//! The proved planner beside the independent one: the answer and every byte of the buffer agree.
use dibwunek_tests::harness::agreement::plans_agree;
use dibwunek_tests::harness::counts::Counts;
use dibwunek_tests::harness::proved::planning;
use dibwunek_tests::makers::random::Random;
use dibwunek_tests::makers::sheets::{plausible, valid, Draft, CASE_14};
use dibwunek_tests::makers::tight;
use dibwunek_tests::reference::answers::Reply;
use dibwunek_tests::reference::planner::{self, Pair, TASK_BYTES};
use dibwunek_tests::reference::reader::{numbers, Level, Sheet, Task};

/// Compares the two planners on a sheet and a buffer of random bytes, and counts their answer.
fn check(sheet: &[u8], length: usize, random: &mut Random, counts: &mut Counts) -> Reply {
    let reply = plans_agree(sheet, length, random);
    counts.add(format!("{:2}", reply.number()));
    reply
}

/// A buffer's length near the 9n bytes of a plan.
fn near(random: &mut Random, count: usize) -> usize {
    let needed = TASK_BYTES * count;
    match random.within(0..=9) {
        0 => needed - 1,
        1 => random.within(0..=needed),
        2 | 3 => needed + random.within(1..=40),
        4 => needed + 1,
        _ => needed,
    }
}

fn bytes(processors: usize, tasks: &[Task]) -> Vec<u8> {
    Draft::of(&Sheet { processors: processors as u8, tasks: tasks.to_vec() }).bytes()
}

const OF_PLANNER: [&str; 4] = [" 0", " 7", " 8", " 9"];

#[test]
fn just_enough_processors() {
    let mut random = Random::of_test("just enough processors");
    let mut counts = Counts::new("just enough processors");
    for _ in 0..1_500 {
        let count = *random.pick(&[1, 2, 2, 3, 3, 4, 5, 6, 8, 12, 16]);
        let tasks = tight::sheet(&mut random, count).tasks;
        let Some(least) = tight::least_processors(&Sheet { processors: 64, tasks: tasks.clone() }) else {
            counts.add("lists that no M plans");
            continue;
        };
        for processors in least.saturating_sub(2).max(1)..=64.min(least + 2) {
            let length = near(&mut random, count);
            let reply = check(&bytes(processors, &tasks), length, &mut random, &mut counts);
            assert_eq!(matches!(reply.number(), 7 | 8), processors < least);
        }
    }
    counts.close(OF_PLANNER, 80);
}

#[test]
fn all_sizes() {
    let mut random = Random::of_test("all sizes");
    let mut counts = Counts::new("all sizes");
    for count in (1..=16).cycle().take(480) {
        let tasks = tight::sheet(&mut random, count).tasks;
        for processors in [random.within(1..=64), random.skewed(1..=64)] {
            let length = near(&mut random, count);
            check(&bytes(processors, &tasks), length, &mut random, &mut counts);
        }
    }
    counts.close(OF_PLANNER, 40);
}

#[test]
fn choices_with_equal_totals() {
    let mut random = Random::of_test("equal totals");
    let mut counts = Counts::new("choices with equal totals");
    for _ in 0..2_000 {
        let sheet = tight::tied(&mut random);
        let tied = planner::plan(&sheet).is_ok_and(|plan| plan.ties > 1);
        counts.add(if tied { "several with the chosen totals" } else { "one or none" });
        let length = near(&mut random, sheet.tasks.len());
        check(&Draft::of(&sheet).bytes(), length, &mut random, &mut counts);
    }
    counts.close(["several with the chosen totals", " 0", " 8", " 9"], 100);
}

/// Where a true least critical total lies: what a byte that wraps would make of it, and where it is held as M + 1.
fn place_of(total: Option<usize>, most: usize) -> &'static str {
    match total {
        None => "no choice with a typical total within M",
        Some(total) if total < most => "below M",
        Some(total) if total == most => "M",
        Some(total) if total == most + 1 => "M + 1",
        Some(total) if total < 256 => "M + 2 to 255",
        Some(total) if total % 256 <= most => "from 256, and within M in a byte that wraps",
        Some(_) => "from 256, and above M in a byte that wraps",
    }
}

#[test]
fn totals_beyond_a_byte() {
    /// More than any M, so that no true total within M + 1 is missed.
    const WIDEST: usize = 96;
    let mut random = Random::of_test("totals beyond a byte");
    let mut counts = Counts::new("totals beyond a byte");
    for _ in 0..1_500 {
        let sheet = tight::crowded(&mut random);
        let most = usize::from(sheet.processors);
        let reply = check(&Draft::of(&sheet).bytes(), TASK_BYTES * sheet.tasks.len(), &mut random, &mut counts);
        if reply.number() == 7 {
            continue;
        }
        let total = planner::least_total(&sheet, WIDEST);
        assert_eq!(reply.number() == 8, total.is_none_or(|total| most < total), "{sheet:?}");
        counts.add(place_of(total, most));
    }
    let names = [
        "no choice with a typical total within M",
        "below M",
        "M",
        "M + 1",
        "M + 2 to 255",
        "from 256, and within M in a byte that wraps",
        "from 256, and above M in a byte that wraps",
    ];
    counts.close(names, 5);
}

/// Counts what the plan of a sheet keeps of its low tasks.
fn count_kept(sheet: &Sheet, counts: &mut Counts) {
    let Ok(plan) = planner::plan(sheet) else { return };
    let low = sheet.tasks.iter().zip(&plan.tasks).filter(|(task, _)| task.level == Level::Low);
    let shares = low.map(|(_, planned)| planned.shares);
    let (kept, dropped): (Vec<Pair>, Vec<Pair>) = shares.partition(|shares| shares.critical > 0);
    let how_many = match (kept.len(), dropped.len()) {
        (_, 0) => "all",
        (0, _) => "none",
        _ => "some",
    };
    let full = plan.left == kept.iter().map(|shares| shares.critical).sum::<usize>();
    counts.add(format!("{how_many} kept, {}", if full { "M full" } else { "more left over" }));
    if kept.iter().any(|one| dropped.iter().any(|other| one.typical == other.typical)) {
        counts.add("of equal shares one kept and one not");
    }
    if kept.len() + dropped.len() >= 10 {
        counts.add("ten low tasks or more");
    }
}

#[test]
fn kept_low_tasks() {
    let mut random = Random::of_test("kept low tasks");
    let mut counts = Counts::new("kept low tasks");
    for _ in 0..3_000 {
        let sheet = tight::mostly_low(&mut random);
        count_kept(&sheet, &mut counts);
        let length = near(&mut random, sheet.tasks.len());
        check(&Draft::of(&sheet).bytes(), length, &mut random, &mut counts);
    }
    let names = [
        "all kept, M full",
        "all kept, more left over",
        "some kept, M full",
        "some kept, more left over",
        "none kept, M full",
        "none kept, more left over",
        "of equal shares one kept and one not",
        "ten low tasks or more",
    ];
    counts.close(names, 30);
}

#[test]
fn every_length_of_buffer() {
    let mut random = Random::of_test("every buffer");
    let mut counts = Counts::new("every length of buffer");
    for count in (1..=16).chain(1..=16) {
        let tasks = tight::sheet(&mut random, count).tasks;
        let sheet = Sheet { processors: 64, tasks };
        let processors = tight::least_processors(&sheet).unwrap_or(32);
        let sheet = bytes(processors, &sheet.tasks);
        for length in (0..=TASK_BYTES * count + 16).chain([255, 256, 257, 4_096]) {
            check(&sheet, length, &mut random, &mut counts);
        }
    }
    counts.close([" 0", " 9"], 200);
}

/// What the bytes of a plan of n tasks give task i: its typical share, V and the remainder.
fn rounded_in(plan: &[u8], n: usize, i: usize) -> (usize, usize, usize) {
    let v = numbers(&plan[4 * n..8 * n], 4).nth(i).expect("a task's V");
    (plan[2 * i + 1].into(), v as usize, plan[8 * n + i].into())
}

/// S4.6 on the proved planner's bytes: a·(V − LN) and the remainder are CN − LN, and the remainder is less than a.
#[test]
fn remainders() {
    let mut random = Random::of_test("remainders");
    let mut counts = Counts::new("remainders");
    for count in (1..=16).cycle().take(1_600) {
        let mut sheet = tight::sheet(&mut random, count);
        sheet.processors = random.within(1..=64) as u8;
        let mut plan = random.bytes(TASK_BYTES * count);
        if planning::plan(&Draft::of(&sheet).bytes(), &mut plan) != Reply::Done {
            continue;
        }
        for (i, task) in sheet.tasks.iter().enumerate() {
            let (a, v, left) = rounded_in(&plan, count, i);
            if task.level == Level::Low {
                assert_eq!((v, left), (0, 0), "task {i} of {sheet:?}");
                counts.add("low");
                continue;
            }
            let [cn, ln] = [task.figures.cn, task.figures.ln].map(|figure| figure as usize);
            assert!(left < a && ln <= v && a * (v - ln) + left == cn - ln, "task {i} of {sheet:?}: {a}, {v}, {left}");
            if v > 65_535 {
                counts.add("V beyond two bytes");
            }
            counts.add(match (a, left) {
                (1, _) => "one processor",
                (_, 0) => "nothing left",
                (a, left) if left + 1 == a => "a tick's work less one",
                _ => "less",
            });
        }
    }
    let names = ["low", "one processor", "nothing left", "a tick's work less one", "less", "V beyond two bytes"];
    counts.close(names, 100);
}

#[test]
fn damaged_sheets() {
    let mut random = Random::of_test("damaged sheets");
    let mut counts = Counts::new("damaged sheets");
    for _ in 0..3_000 {
        let count = random.within(1..=5);
        let tasks = tight::sheet(&mut random, count).tasks;
        let mut sheet = bytes(random.within(2..=24), &tasks);
        for _ in 0..random.within(1..=2) {
            let at = random.within(0..=sheet.len() - 1);
            sheet[at] = if random.once_in(2) { sheet[at] ^ 1 << random.within(0..=7) } else { random.word() as u8 };
        }
        if random.once_in(10) {
            sheet.truncate(random.within(0..=sheet.len()));
        }
        let length = near(&mut random, count);
        check(&sheet, length, &mut random, &mut counts);
    }
    counts.close((0..=8).map(|number| format!("{number:2}")), 10);
}

#[test]
fn sheets_of_the_reader() {
    let mut random = Random::of_test("sheets of the reader");
    let mut counts = Counts::new("sheets of the reader");
    for _ in 0..2_000 {
        let sheet = valid(&mut random);
        let length = near(&mut random, sheet.tasks.len());
        check(&Draft::of(&sheet).bytes(), length, &mut random, &mut counts);
        let length = random.within(0..=100);
        check(&plausible(&mut random), length, &mut random, &mut counts);
    }
    counts.close([" 7"], 500);
}

#[test]
fn cases_11_12_and_14() {
    let [a, b, e] = [14, 30, 46].map(|at| CASE_14[at..at + 16].to_vec());
    let plan = |processors, records: &[&Vec<u8>]| {
        let draft = Draft { processors, records: records.iter().map(|&record| record.clone()).collect() };
        let mut buffer = vec![77; 30];
        (planning::plan(&draft.bytes(), &mut buffer), buffer)
    };
    let refused = |number, task| (Reply::Refused(number, task), vec![77; 30]);
    let of_11 = [&[0, 1, 1, 3, 0, 2, 2, 4, 9, 0, 0, 0, 6, 0, 0, 0, 0, 1][..], &[77; 12]].concat();
    for processors in [6, 8] {
        assert_eq!(plan(processors, &[&a, &b]), (Reply::Done, of_11.clone()));
    }
    assert_eq!(plan(5, &[&a, &b]), refused(8, 255));
    assert_eq!(plan(3, &[&a, &b]), refused(7, 1));
    assert_eq!(plan(7, &[&a, &b, &e]), refused(8, 255));
    let of_14 = [0, 1, 1, 2, 3, 5, 0, 2, 2, 6, 8, 0, 9, 0, 0, 0, 7, 0, 0, 0, 0, 0, 0, 0, 0, 1, 0, 77, 77, 77];
    assert_eq!(plan(8, &[&a, &b, &e]), (Reply::Done, of_14.to_vec()));
}

/// A has the shares (1, 2), E takes 5 processors, and F, which is E with a work of 30, takes 2.
#[test]
fn kept_tasks_by_hand() {
    let [a, e] = [14, 46].map(|at| CASE_14[at..at + 16].to_vec());
    let f = [&e[..4], &[30, 0, 30, 0], &e[8..]].concat();
    let plan = |processors, records: &[&Vec<u8>]| {
        let draft = Draft { processors, records: records.iter().map(|&record| record.clone()).collect() };
        let mut buffer = vec![77; TASK_BYTES * records.len()];
        assert_eq!(planning::plan(&draft.bytes(), &mut buffer), Reply::Done);
        buffer
    };
    let of_two = |e: u8| [&[0, 1, 1, 5, 0, 2, 2, e, 9][..], &[0; 9]].concat();
    for processors in [7, 8] {
        assert_eq!(plan(processors, &[&a, &e]), of_two(5), "5 or 6 are left over");
    }
    assert_eq!(plan(6, &[&a, &e]), of_two(0), "4 are");
    let smaller = [&[0, 5, 5, 1, 6, 2, 0, 0, 0, 2, 2, 2, 0, 0, 0, 0, 9][..], &[0; 10]].concat();
    assert_eq!(plan(8, &[&e, &a, &f]), smaller, "of E and F the smaller");
    let blocks = [0, 2, 2, 2, 4, 1, 5, 2, 0, 2, 2, 2, 4, 2, 6, 0];
    let first_two = [&blocks[..], &[0; 8], &[9], &[0; 11]].concat();
    assert_eq!(plan(7, &[&f, &f, &a, &f]), first_two, "of three alike the first two");
}
