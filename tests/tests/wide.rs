//! The wide form (S2.6, S2.7): its limits, sheets that mix both forms, wide twins, and jobs of some 400,000 ticks.
//! A wide twin says the same tasks in the wide form. It is read, planned, started and run as the sheet is, but for the
//! levels.
use dibwunek_tests::harness::agreement::{plans_agree, starts_agree, Tally};
use dibwunek_tests::harness::boundary::{
    of_words, place, to_words, Dispatcher, AGE, ALIVE, DEADLINE, LEVEL, VIRTUAL_DEADLINE,
};
use dibwunek_tests::harness::comparison::{each_on, reports, walk, Comparison};
use dibwunek_tests::harness::counts::{hold, Counts};
use dibwunek_tests::harness::long::LongRun;
use dibwunek_tests::harness::proved::dispatching::Proved;
use dibwunek_tests::harness::proved::{self, importing, planning, starting};
use dibwunek_tests::harness::suites::returns::returning_story;
use dibwunek_tests::harness::suites::{any_story, low_story};
use dibwunek_tests::makers::crafts::{exact, exact_kept, Crafted, Kind};
use dibwunek_tests::makers::faults::{of_record, with_figures};
use dibwunek_tests::makers::graphs::{in_lines, Graph};
use dibwunek_tests::makers::lengths::Budget;
use dibwunek_tests::makers::random::Random;
use dibwunek_tests::makers::sheets::{form_of, record, small, valid, Draft, CASE_14};
use dibwunek_tests::makers::states::sound;
use dibwunek_tests::makers::tight;
use dibwunek_tests::reference::answers::Reply;
use dibwunek_tests::reference::import::Terms;
use dibwunek_tests::reference::logs::Call;
use dibwunek_tests::reference::planner::{self, Plan, TASK_BYTES};
use dibwunek_tests::reference::reader::{level_byte, numbers, of_level_byte, Figures, Form, Level, Sheet, Task};
use std::ops::RangeInclusive;

const FORMS: [Form; 2] = [Form::Narrow, Form::Wide];
const LEVELS: [Level; 2] = [Level::Low, Level::High];

/// The ends of both forms' ranges and of two bytes, and the numbers behind them.
const EDGES: [u32; 6] = [10_000, 10_001, 65_535, 65_536, 1_000_000, 1_000_001];

/// The record of a task of one node.
fn of_figures(level: Level, form: Form, figures: Figures) -> Vec<u8> {
    record(&Task { level, form, figures, masks: vec![0] })
}

/// A lawful record of one node, low or high.
fn lawful(level: Level, form: Form) -> Vec<u8> {
    of_figures(level, form, Figures { d: 50, cn: 100, co: 100, ln: 10, lo: 10 })
}

/// The record alone on a sheet, and behind a lawful one of each form.
fn sheets_with(record: &[u8]) -> Vec<(Vec<u8>, u8)> {
    let alone = Draft { processors: 8, records: vec![record.to_vec()] };
    let behind = FORMS.map(|form| Draft { processors: 8, records: vec![lawful(Level::High, form), record.to_vec()] });
    std::iter::once((alone.bytes(), 0)).chain(behind.map(|draft| (draft.bytes(), 1))).collect()
}

/// Figures of which the one at this place is x. The others are what the rules then ask for, within the limit where they can
/// be.
fn with_edge(level: Level, limit: u32, at: usize, x: u32) -> Figures {
    let heavy = limit.min(x + 1);
    match (at, level) {
        (0, _) => Figures { d: x, cn: heavy, co: heavy, ln: 1, lo: 1 },
        (1, _) | (2, Level::Low) => Figures { d: 1, cn: x, co: x, ln: 1, lo: 1 },
        (2, Level::High) => Figures { d: 1, cn: 2, co: x, ln: 1, lo: 1 },
        (4, Level::High) => Figures { d: 1, cn: 1, co: x, ln: 1, lo: x },
        _ => Figures { d: 1, cn: x, co: x, ln: x, lo: x },
    }
}

/// Each figure at each edge that its bytes can hold. Past the form's limit it is refused with 4. At the limit D is refused
/// with 6, since no CO is above it. All else is read.
#[test]
fn figures_at_the_limits_of_their_form() {
    let mut random = Random::of_test("figures at the limits");
    let mut tally = Tally::new("figures at the limits of their form", 1);
    let kinds = LEVELS.into_iter().flat_map(|level| FORMS.map(|form| (level, form)));
    for ((level, form), at) in kinds.flat_map(|kind| (0..5).map(move |at| (kind, at))) {
        let limit = form.limit();
        for x in EDGES.into_iter().filter(|&x| form == Form::Wide || x < 65_536) {
            let number = match (x > limit, at == 0 && x == limit) {
                (true, _) => 4,
                (_, true) => 6,
                _ => 0,
            };
            for (sheet, task) in sheets_with(&of_figures(level, form, with_edge(level, limit, at, x))) {
                tally.expect(&sheet, if number == 0 { (0, 255) } else { (number, task) });
                let reply = plans_agree(&sheet, 2 * TASK_BYTES, &mut random);
                assert_eq!(starts_agree(&sheet), reply);
            }
            for (sheet, task) in sheets_with(&with_figures(&lawful(level, form), &[(at, x as usize)])) {
                let answer = tally.check(&sheet);
                assert!(x <= limit || answer == (4, task), "{x} at {at} of {level:?}, {form:?}: {answer:?}");
            }
        }
    }
    tally.close(&[0, 4, 6], 10);
}

/// Of the 256 bytes each form takes two, and the other form's two ask for another length.
#[test]
fn every_level_byte() {
    let mut tally = Tally::new("every level byte", 1);
    for form in FORMS {
        for byte in 0..=u8::MAX {
            let mut record = lawful(Level::Low, form);
            record[0] = byte;
            let is_own = of_level_byte(byte).is_some_and(|(_, own)| own == form);
            for (sheet, task) in sheets_with(&record) {
                tally.expect(&sheet, if is_own { (0, 255) } else { (3, task) });
            }
        }
    }
    tally.close(&[3], 2 * 3 * 254);
}

fn has(sheet: &Sheet, form: Form) -> bool {
    sheet.tasks.iter().any(|task| task.form == form)
}

fn kind_of(sheet: &Sheet) -> &'static str {
    match FORMS.map(|form| has(sheet, form)) {
        [true, true] => "mixed",
        [true, false] => "narrow",
        _ => "wide",
    }
}

/// A state with its ages near V or D, and some jobs alive at those ages.
fn later(random: &mut Random, line: &[u32]) -> Vec<u32> {
    let mut line = line.to_vec();
    for task in 0..line[1] as usize {
        let [deadline, v] = [DEADLINE, VIRTUAL_DEADLINE].map(|word| line[place(task, word)]);
        let near_v = random.within(v.saturating_sub(3) as usize..=v as usize) as u32;
        line[place(task, AGE)] = *random.pick(&[near_v, near_v, deadline - 1, deadline]);
        line[place(task, ALIVE)] = u32::from(!random.once_in(3));
    }
    line
}

/// Large figures in records of both forms: Plan and Start, and then calls on the fresh state and on one in which V and D
/// are near.
#[test]
fn mixed_sheets_through_every_call() {
    let mut random = Random::of_test("mixed sheets");
    let mut comparison = Comparison::new("mixed sheets through every call");
    let mut made = 0;
    while made < 300 {
        let count = random.within(2..=16);
        let mut sheet = tight::sheet(&mut random, count);
        let Some(least) = tight::least_processors(&sheet).filter(|_| kind_of(&sheet) == "mixed") else { continue };
        made += 1;
        sheet.processors = 64.min(least + random.within(0..=2)) as u8;
        let bytes = Draft::of(&sheet).bytes();
        assert_eq!(plans_agree(&bytes, TASK_BYTES * count, &mut random), Reply::Done);
        assert_eq!(starts_agree(&bytes), Reply::Done);
        let (_, fresh) = starting::start(&bytes);
        walk(&mut random, fresh.clone(), 10, &mut comparison);
        let later = later(&mut random, &fresh);
        if (0..count).any(|task| later[place(task, AGE)] > 65_535) {
            comparison.counts.add("states with an age beyond two bytes");
        }
        walk(&mut random, later, 20, &mut comparison);
    }
    assert_eq!(comparison.counts.of("10"), 0);
    let names = ["released", "ran", "switched", "returned", "board", "11", "13", "states with an age beyond two bytes"];
    comparison.counts.close(names, 50);
}

/// The wide twin of a sheet that has its records in place.
fn twin_of(sheet: &[u8]) -> Vec<u8> {
    Draft::cut(sheet).wide_twin().bytes()
}

/// A line with each level in the narrow form.
fn narrowed(line: &[u32]) -> Vec<u32> {
    let mut line = line.to_vec();
    for task in 0..line[1] as usize {
        line[place(task, LEVEL)] %= 16;
    }
    line
}

/// The twin's line is that of the sheet but for the levels, which are wide.
fn lines_alike(twin: &[u32], line: &[u32], on: impl Fn() -> String) {
    hold(&narrowed(twin), &narrowed(line), &on);
    let wide = (0..line[1] as usize).all(|task| twin[place(task, LEVEL)] == 16 + line[place(task, LEVEL)] % 16);
    assert!(wide, "a twin's level is not wide: {}", on());
}

/// Both are read to the same tasks but for the level.
fn read_alike(twin: &[u8], sheet: &[u8]) {
    let [mut read, of_twin] = [sheet, twin].map(proved::task_set);
    for task in &mut read.tasks[..usize::from(sheet[1])] {
        task[0] = 16 + task[0] % 16;
    }
    hold(&of_twin, &read, || format!("the wide twin of {sheet:?}"));
}

/// Both have the same answer and plan, and the same state but for the levels.
fn planned_and_started_alike(twin: &[u8], sheet: &[u8], random: &mut Random) -> Reply {
    let on = || format!("the wide twin of {sheet:?}");
    let needed = TASK_BYTES * usize::from(sheet[1]);
    let length = *random.pick(&[needed, needed, needed - 1, needed + 5]);
    let before = random.bytes(length);
    let [planned, of_twin] = [sheet, twin].map(|sheet| {
        let mut buffer = before.clone();
        (planning::plan(sheet, &mut buffer), buffer)
    });
    hold(&of_twin, &planned, on);
    let ((reply, line), (of_twin, twin_line)) = (starting::start(sheet), starting::start(twin));
    hold(&of_twin, &reply, on);
    match reply {
        Reply::Done => lines_alike(&twin_line, &line, on),
        _ => hold(&twin_line, &line, on),
    }
    assert!(planned.0 == reply || planned.0.number() == 9, "{}", on());
    reply
}

/// A sheet that the reader accepts, of any maker.
fn any_sheet(random: &mut Random) -> Sheet {
    let count = random.within(1..=16);
    match random.within(0..=7) {
        0 => valid(random),
        1 => tight::tied(random),
        2 => tight::mostly_low(random),
        3 => tight::crowded(random),
        _ => tight::with_graphs(random, count),
    }
}

#[test]
fn wide_twins_of_accepted_sheets_and_of_those_without_a_plan() {
    let mut random = Random::of_test("wide twins");
    let mut counts = Counts::new("wide twins");
    for round in 0..6_000 {
        let sheet = any_sheet(&mut random);
        let bytes = Draft::of(&sheet).bytes();
        let twin = twin_of(&bytes);
        if round % 4 == 0 {
            read_alike(&twin, &bytes);
        }
        let reply = planned_and_started_alike(&twin, &bytes, &mut random);
        counts.add(format!("{} of a {} sheet", reply.number(), kind_of(&sheet)));
    }
    let names = ["narrow", "mixed"].map(|kind| [0, 7, 8].map(|number| format!("{number} of a {kind} sheet")));
    counts.close(names.into_iter().flatten(), 50);
}

/// A fault of the figures, of a mask, or of the work is the same in the wide form where no figure is past the narrow limit.
#[test]
fn wide_twins_of_faulty_sheets() {
    let mut random = Random::of_test("wide twins of faulty sheets");
    let mut counts = Counts::new("wide twins of faulty sheets");
    let fits = |record: &[u8]| {
        let form = form_of(record);
        numbers(&record[2..form.head()], form.width()).all(|figure| figure <= Form::Narrow.limit())
    };
    for count in (1..=16).cycle().take(64) {
        let draft = Draft::of(&small(&mut random, count));
        let task = random.within(0..=count - 1);
        for (number, record) in of_record(&draft.records[task], &mut random) {
            if number == 3 || !fits(&record) {
                continue;
            }
            let form = form_of(&record);
            let faulty = draft.with_record(task, record);
            let answers = [faulty.bytes(), faulty.wide_twin().bytes()].map(|sheet| proved::read(&sheet));
            assert_eq!(answers, [(number, task as u8); 2], "{faulty:?}");
            counts.add(format!("{number}, {form:?}"));
        }
    }
    counts.close(["4, Narrow", "5, Narrow", "6, Narrow"], 100);
}

fn call_on(line: &[u32], call: &Call) -> (Reply, Vec<u32>) {
    match call {
        Call::Release(task) => Proved.release(line, *task),
        Call::Tick(reports) => Proved.tick(line, reports),
    }
}

fn boards_alike(twin: &[u32], line: &[u32]) {
    let [board, of_twin] = [line, twin].map(|line| {
        let mut board = vec![7; 2 * line[0] as usize];
        (Proved.board(line, &mut board), board)
    });
    hold(&of_twin, &board, || format!("the wide twin of {line:?}"));
}

/// The same call on both lines: the answers, the boards, and the lines but for the levels.
fn called_alike(twin: &[u32], line: &[u32], call: &Call, counts: &mut Counts) -> (Vec<u32>, Vec<u32>) {
    let on = || format!("{call:?} on the wide twin of {line:?}");
    let ((reply, next), (of_twin, after)) = (call_on(line, call), call_on(twin, call));
    hold(&of_twin, &reply, on);
    lines_alike(&after, &next, on);
    boards_alike(&after, &next);
    counts.add(match reply {
        Reply::Done => "accepted".to_string(),
        Reply::Switched(_) => "switched".to_string(),
        Reply::Returned => "returned".to_string(),
        Reply::Refused(number, _) => number.to_string(),
    });
    (after, next)
}

#[test]
fn wide_twins_run_alike() {
    let mut random = Random::of_test("runs of wide twins");
    let mut counts = Counts::new("runs of wide twins");
    let kinds = [Kind::Nominal, Kind::Overload, Kind::Overload, Kind::Beyond, Kind::Endless];
    for round in 0..300 {
        let story = match round % 3 {
            0 => any_story(&mut random, &kinds, true, 6),
            1 => low_story(&mut random, 6),
            _ => returning_story(&mut random, 6),
        };
        let (mut line, mut twin) = (starting::start(&story.sheet).1, starting::start(&twin_of(&story.sheet)).1);
        lines_alike(&twin, &line, || format!("Start of {:?}", story.sheet));
        for call in &story.calls {
            (twin, line) = called_alike(&twin, &line, call, &mut counts);
        }
    }
    counts.close(["accepted", "switched", "returned", "11", "12", "13", "14", "15"], 50);
}

/// Any sound state, and the same in the wide form: D within the narrow limit is within the wide one.
#[test]
fn wide_twins_of_sound_states() {
    let mut random = Random::of_test("wide twins of states");
    let mut counts = Counts::new("wide twins of states");
    for _ in 0..3_000 {
        let state = sound(&mut random);
        let line = to_words(&state);
        let mut twin = line.clone();
        for task in 0..usize::from(state.count) {
            twin[place(task, LEVEL)] = 16 + line[place(task, LEVEL)] % 16;
        }
        let task = random.within(0..=usize::from(state.count));
        called_alike(&twin, &line, &Call::Release(task), &mut counts);
        let tick = Call::Tick(reports(&mut random, &state));
        called_alike(&twin, &line, &tick, &mut counts);
    }
    assert_eq!(counts.of("10"), 0);
    counts.close(["accepted", "switched", "returned", "11", "12", "13", "14", "15"], 50);
}

/// The ticks of a dye line's deadline.
const DYE: RangeInclusive<u32> = 390_000..=410_000;

/// A planned sheet with one high task, and a task with a dye line's deadline, whose job takes all of its overload budget.
struct DyeLine {
    sheet: Sheet,
    tasks: Vec<Crafted>,
    plan: Plan,
    high: usize,
    dye: usize,
}

impl DyeLine {
    /// The first of a maker's sheets in which a task that will do has such a deadline. A task will do by the shares that the
    /// tasks get, the number of the high one, and its own.
    fn of(
        made: impl FnMut() -> Option<(Sheet, Vec<Crafted>, usize)>,
        will_do: fn(&Plan, usize, usize) -> bool,
    ) -> DyeLine {
        let line = |(sheet, tasks, high): (Sheet, Vec<Crafted>, usize)| {
            let plan = planner::plan(&sheet).expect("crafted tasks are planned");
            let is_long = |task: &usize| DYE.contains(&sheet.tasks[*task].figures.d);
            let dye = (0..tasks.len()).filter(is_long).find(|&task| will_do(&plan, high, task))?;
            Some(DyeLine { sheet, tasks, plan, high, dye })
        };
        let line = std::iter::repeat_with(made).flatten().find_map(line).expect("one is made");
        let Crafted { task, overload, .. } = &line.tasks[line.dye];
        let Figures { co, lo, .. } = task.figures;
        assert_eq!(Budget::of(&task.masks, overload), Budget { work: co, span: lo });
        line
    }

    /// D of the dye line.
    fn deadline(&self) -> u32 {
        self.sheet.tasks[self.dye].figures.d
    }

    /// V of the high task.
    fn virtual_deadline(&self) -> u32 {
        self.plan.tasks[self.high].virtual_deadline
    }

    /// A run on the proved dispatcher, from Start, in which the dye line's job begins.
    fn run(&self) -> LongRun<'static> {
        let bytes = Draft::of(&self.sheet).bytes();
        assert_eq!(starts_agree(&bytes), Reply::Done);
        let mut run = LongRun::new(&Proved, starting::start(&bytes).1);
        run.release(self.dye, &self.tasks[self.dye].overload);
        run
    }

    /// The next tick must answer so. Gives whether the dye line's job is over.
    fn tick(&self, run: &mut LongRun, expected: Reply) -> bool {
        hold(&run.tick(), &expected, || format!("a tick of {:?}", self.sheet));
        !run.is_alive(self.dye)
    }

    /// The answer of a tick with which the high task turns the state critical.
    fn switched(&self) -> Reply {
        Reply::Switched(self.high as u8)
    }
}

/// A high job beside a low task that comes again and again until the switch, with V, drops it. It lasts as long as its
/// shares allow: to tick D, which returns. Then it may come again, and so may the low one.
#[test]
fn a_dye_line_ends_by_its_deadline() {
    let mut random = Random::of_test("dye lines");
    let mut counts = Counts::new("dye lines");
    for _ in 0..3 {
        let line = DyeLine::of(|| exact(&mut random, 20_000), |_, high, task| task == high);
        let (d, v, low) = (line.deadline(), line.virtual_deadline(), 1 - line.dye);
        let mut run = line.run();
        for tick in 1..=d {
            if tick <= v && run.is_due(low) {
                run.release(low, &line.tasks[low].overload);
                counts.add("low jobs");
            }
            let expected = match tick {
                tick if tick == v => line.switched(),
                tick if tick == d => Reply::Returned,
                _ => Reply::Done,
            };
            assert_eq!(line.tick(&mut run, expected), tick == d, "tick {tick} of {:?}", line.sheet);
        }
        run.release(line.dye, &line.tasks[line.dye].overload);
        run.release(low, &line.tasks[low].overload);
        counts.add_many("ticks", d as usize);
        counts.add("dye jobs that ended in tick D");
    }
    counts.ask(["low jobs"], 1_000);
    counts.close(["dye jobs that ended in tick D"], 3);
}

fn is_kept(plan: &Plan, high: usize, task: usize) -> bool {
    task != high && plan.tasks[task].shares.critical > 0
}

/// A kept low job, and a high one that never ends and turns the state critical in the middle of it. The low one lasts as
/// long as its share allows: to tick D. Then it may come again.
#[test]
fn a_kept_dye_line_ends_by_its_deadline() {
    let mut random = Random::of_test("kept dye lines");
    let mut counts = Counts::new("kept dye lines");
    for _ in 0..2 {
        let line = DyeLine::of(|| exact_kept(&mut random, 30_000), is_kept);
        let (d, v) = (line.deadline(), line.virtual_deadline());
        let release = random.within(1..=(d - v) as usize) as u32;
        let mut run = line.run();
        for tick in 1..=d {
            if tick == release {
                run.release(line.high, &vec![u32::MAX; line.sheet.tasks[line.high].masks.len()]);
            }
            let expected = if tick + 1 == release + v { line.switched() } else { Reply::Done };
            assert_eq!(line.tick(&mut run, expected), tick == d, "tick {tick} of {:?}", line.sheet);
        }
        run.release(line.dye, &line.tasks[line.dye].overload);
        counts.add_many("ticks", d as usize);
        counts.add("kept dye jobs that ended in tick D");
    }
    counts.close(["kept dye jobs that ended in tick D"], 2);
}

/// A kept low job, and a high task that comes again and again and turns the state critical each time, some ticks before its
/// job ends and the state is typical again. The low one lasts as long as its share allows: to tick D.
#[test]
fn a_kept_dye_line_ends_by_its_deadline_over_many_returns() {
    let mut random = Random::of_test("kept dye lines over returns");
    let mut counts = Counts::new("kept dye lines over returns");
    for _ in 0..2 {
        let line = DyeLine::of(|| exact_kept(&mut random, 30_000), is_kept);
        let (d, v) = (line.deadline(), line.virtual_deadline());
        let mut run = line.run();
        let mut begun = 0;
        for tick in 1..=d {
            if run.is_due(line.high) && !run.is_alive(line.high) {
                begun = tick;
                // The first node runs from the first tick on, so that the job is alive after tick V.
                let mut lengths = vec![1; line.sheet.tasks[line.high].masks.len()];
                lengths[0] = v + random.within(1..=200) as u32;
                run.release(line.high, &lengths);
            }
            let was_alive = run.is_alive(line.high);
            let reply = run.tick();
            let expected = match (was_alive, run.is_alive(line.high)) {
                (true, true) if tick + 1 == begun + v => line.switched(),
                (true, false) => Reply::Returned,
                _ => Reply::Done,
            };
            hold(&reply, &expected, || format!("tick {tick} of {:?}", line.sheet));
            assert_eq!(!run.is_alive(line.dye), tick == d, "tick {tick} of {:?}", line.sheet);
            counts.add(format!("{reply:?}"));
        }
        run.release(line.dye, &line.tasks[line.dye].overload);
        counts.add("kept dye jobs that ended in tick D");
    }
    counts.ask(["Returned"], 1_000);
    counts.close(["kept dye jobs that ended in tick D"], 2);
}

/// A task of two processors in each state whose V is 99,999, with 1 left over, before case 14's A, whose V is 9.
#[test]
fn v_of_four_bytes() {
    let figures = Figures { d: 100_000, cn: 133_948, co: 133_948, ln: 66_051, lo: 66_051 };
    let records = vec![of_figures(Level::High, Form::Wide, figures), CASE_14[14..30].to_vec()];
    let sheet = Draft { processors: 4, records }.bytes();
    let plan = [0, 2, 2, 1, 0, 2, 2, 2, 0x9f, 0x86, 1, 0, 9, 0, 0, 0, 1, 0];
    for length in 0..=30 {
        let mut buffer = vec![77; length];
        let reply = planning::plan(&sheet, &mut buffer);
        let short = length < 9 * 2;
        assert_eq!(reply, if short { Reply::Refused(9, 255) } else { Reply::Done }, "{length} bytes");
        let written = if short { vec![77; length] } else { [&plan[..], &vec![77; length - 18]].concat() };
        assert_eq!(buffer, written, "{length} bytes");
    }
    let (_, line) = starting::start(&sheet);
    assert_eq!(
        [LEVEL, DEADLINE, VIRTUAL_DEADLINE, AGE].map(|word| line[place(0, word)]),
        [17, 100_000, 99_999, 100_000]
    );
    assert_eq!([LEVEL, DEADLINE, VIRTUAL_DEADLINE, AGE].map(|word| line[place(1, word)]), [1, 45, 9, 45]);
}

/// The state of one task without a job, with this level and this D.
fn of_one(level: u8, deadline: u32) -> Vec<u32> {
    let (_, mut line) =
        starting::start(&Draft { processors: 8, records: vec![lawful(Level::Low, Form::Narrow)] }.bytes());
    line[place(0, LEVEL)] = level.into();
    line[place(0, DEADLINE)] = deadline;
    line[place(0, AGE)] = deadline;
    line
}

/// Release, Tick and Board on a state of one task refuse it with 10 unless it is sound.
fn sound_or_refused(line: &[u32], is_sound: bool, comparison: &mut Comparison) {
    let state = of_words(line).expect("each word fits its field");
    each_on(&mut Random::of_test("calls on states"), line, &state, comparison);
    let number = if is_sound { 0 } else { 10 };
    let on = || format!("{state:?}");
    hold(&comparison.release(line, 0).0.number(), &number, on);
    hold(&comparison.tick(line, &[0]).0.number(), &number, on);
    hold(&comparison.board(line, &[7; 16]).number(), &number, on);
}

#[test]
fn a_sound_deadline_is_within_the_limit_of_its_level() {
    let mut comparison = Comparison::new("deadlines of states");
    for (level, form) in LEVELS.into_iter().flat_map(|level| FORMS.map(|form| (level, form))) {
        for deadline in [0, 1].into_iter().chain(EDGES).chain([10_000 + (1 << 20), 1 << 31, u32::MAX]) {
            let line = of_one(level_byte(level, form), deadline);
            sound_or_refused(&line, (1..=form.limit()).contains(&deadline), &mut comparison);
        }
    }
    comparison.counts.close(["released", "ran", "board", "10"], 10);
}

#[test]
fn a_sound_level_is_one_of_four() {
    let mut comparison = Comparison::new("levels of states");
    for level in 0..=u8::MAX {
        for deadline in [1, 10_000] {
            sound_or_refused(&of_one(level, deadline), of_level_byte(level).is_some(), &mut comparison);
        }
    }
    comparison.counts.close(["10"], 3 * 2 * 252);
}

/// Ages grow to a million and stay there. A high job whose V is a million turns the state critical with the tick that
/// brings its age to it.
#[test]
fn ages_of_a_million() {
    let mut comparison = Comparison::new("ages of a million");
    let mut line = of_one(level_byte(Level::High, Form::Wide), 1_000_000);
    line[place(0, VIRTUAL_DEADLINE)] = 1_000_000;
    line = comparison.release(&line, 0).1;
    line[place(0, AGE)] = 999_998;
    for (age, reply) in [(999_999, Reply::Done), (1_000_000, Reply::Switched(0)), (1_000_000, Reply::Done)] {
        let step = comparison.tick(&line, &[0]);
        line = step.1;
        assert_eq!((step.0, line[place(0, AGE)]), (reply, age));
    }
    line[place(0, AGE)] = 1_000_001;
    assert_eq!(comparison.tick(&line, &[0]).0, Reply::Refused(10, 255));
}

/// A text that levels 0 and 1 import is refused with 17 for 16 and 17, with room for a record of either form.
#[test]
fn import_keeps_to_the_narrow_levels() {
    let text = in_lines(&Graph::in_a_row(&[3, 4, 5]));
    for room in FORMS.map(|form| form.head() + 4 * 3) {
        for (level, reply) in [0, 1].map(|level| (level, Reply::Done)).into_iter().chain(refused_levels()) {
            let before = vec![7; room];
            let mut after = before.clone();
            let terms = Terms { level, deadline: 10, percentage: 100 };
            assert_eq!(importing::import(&text, terms, &mut after), reply, "level {level}, {room} bytes");
            assert_eq!(after == before, reply != Reply::Done, "level {level}, {room} bytes");
        }
    }
}

fn refused_levels() -> impl Iterator<Item = (u32, Reply)> {
    [16, 17, 272, 273].into_iter().map(|level| (level, Reply::Refused(17, 255)))
}
