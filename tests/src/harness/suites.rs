//! Families of call lists, to be run on any dispatcher.
use crate::harness::boundary::{of_words, Dispatcher};
use crate::harness::counts::Counts;
use crate::harness::replay::run;
use crate::makers::crafts::{crafted, crafted_task, exact, exact_kept, sheet_of, Crafted, Kind};
use crate::makers::random::Random;
use crate::makers::sheets::{Draft, CASE_14};
use crate::makers::world::{longest_lasting, story, Manner, Pace, Story};
use crate::reference::answers::Reply;
use crate::reference::dispatcher::Mode;
use crate::reference::planner;
use crate::reference::reader::{Level, Sheet};

pub mod isolation;
pub mod returns;

/// What lists are run on: a dispatcher, and the Start that gives it its fresh states.
#[derive(Clone, Copy)]
pub struct Subject<'a> {
    pub dispatcher: &'a dyn Dispatcher,
    pub start: fn(&[u8]) -> (Reply, Vec<u32>),
}

impl Subject<'_> {
    fn run(&self, story: &Story, counts: &mut Counts) {
        run(self.dispatcher, self.fresh(story), story, counts);
    }

    /// The line that Start leaves of a story's sheet, which it must accept.
    fn fresh(&self, story: &Story) -> Vec<u32> {
        let (reply, fresh) = (self.start)(&story.sheet);
        assert_eq!(reply, Reply::Done, "Start of {:?}", story.sheet);
        fresh
    }
}

/// How the jobs of a level are.
struct Conduct<'a> {
    kinds: &'a [Kind],
    /// Whether their reports may be false.
    liars: bool,
}

/// A random list over a random sheet: kinds of high jobs, and whether they may lie. Low jobs do as they please.
pub fn any_story(random: &mut Random, high: &[Kind], liars: bool, scale: usize) -> Story {
    let count = *random.pick(&[1, 1, 2, 2, 3, 4, 5, 8, 16]);
    let (sheet, tasks) = crafted(random, &[Level::High, Level::High, Level::High, Level::Low], count, scale);
    let low = Conduct { kinds: &[Kind::Nominal, Kind::Nominal, Kind::Beyond, Kind::Endless], liars: true };
    told(random, &sheet, &tasks, Conduct { kinds: high, liars }, low)
}

/// A random list over a random sheet of mostly low tasks. Low jobs keep their budgets under true reports, high ones do
/// as they please.
pub fn low_story(random: &mut Random, scale: usize) -> Story {
    let count = *random.pick(&[2, 2, 3, 3, 4, 5, 8, 16]);
    let (sheet, tasks) = crafted(random, &[Level::High, Level::Low, Level::Low], count, scale);
    let high = [Kind::Nominal, Kind::Overload, Kind::Beyond, Kind::Endless];
    let low = Conduct { kinds: &[Kind::Nominal], liars: false };
    told(random, &sheet, &tasks, Conduct { kinds: &high, liars: true }, low)
}

/// The longest deadline of a sheet.
fn longest(sheet: &Sheet) -> usize {
    sheet.tasks.iter().map(|task| task.figures.d as usize).max().unwrap_or(0)
}

fn told(random: &mut Random, sheet: &Sheet, tasks: &[Crafted], high: Conduct, low: Conduct) -> Story {
    let longest = longest(sheet);
    let conduct = |task: &Crafted| if task.task.level == Level::High { &high } else { &low };
    let manner = Manner {
        ticks: random.within(1..=3) * longest + random.within(1..=3),
        paces: vec![if random.once_in(3) { Pace::Idle } else { Pace::Eager }; tasks.len()],
        kinds: tasks.iter().map(|task| conduct(task).kinds.to_vec()).collect(),
        first: tasks.iter().map(|_| if random.once_in(2) { 0 } else { random.within(0..=longest) }).collect(),
        liars: tasks.iter().map(|task| conduct(task).liars).collect(),
        refused: !random.once_in(3),
    };
    story(random, sheet, tasks, &manner)
}

/// High jobs keep their nominal budgets, so nothing may switch or return, whatever the low jobs do.
pub fn nominal_lists(subject: Subject, rounds: usize) {
    let mut random = Random::of_test("nominal lists");
    let mut counts = Counts::new("nominal lists");
    for round in 0..rounds {
        let scale = if round % 50 == 49 { 100 } else { 6 };
        let story = any_story(&mut random, &[Kind::Nominal], false, scale);
        subject.run(&story, &mut counts);
    }
    assert_eq!(counts.of("lists within nominal budgets"), rounds);
    assert_eq!(counts.of("switched") + counts.of("returned"), 0);
    let names =
        ["released", "ran", "high jobs that were due", "nominal jobs that ended in tick V", "11", "13", "14", "15"];
    counts.close(names, rounds / 5);
}

/// High jobs keep their overload budgets, and use them up.
pub fn overload_lists(subject: Subject, rounds: usize) {
    let mut random = Random::of_test("overload lists");
    let mut counts = Counts::new("overload lists");
    for round in 0..rounds {
        let scale = if round % 50 == 49 { 100 } else { 6 };
        let story = any_story(&mut random, &[Kind::Nominal, Kind::Overload, Kind::Overload], false, scale);
        subject.run(&story, &mut counts);
    }
    let names = ["released", "ran", "switched", "returned", "high jobs that were due", "11", "13", "14", "15"];
    counts.close(names, rounds / 5);
}

/// Some high jobs never end or report what is not so; the others must be served as before.
pub fn wild_lists(subject: Subject, rounds: usize) {
    let mut random = Random::of_test("wild lists");
    let mut counts = Counts::new("wild lists");
    let kinds = [Kind::Nominal, Kind::Overload, Kind::Overload, Kind::Beyond, Kind::Endless];
    for _ in 0..rounds {
        let story = any_story(&mut random, &kinds, true, 6);
        subject.run(&story, &mut counts);
    }
    let names = ["released", "ran", "switched", "high jobs that were due", "11", "12", "13", "14", "15"];
    counts.close(names, rounds / 10);
}

/// Low jobs keep their budgets: kept ones end in time, whatever the high jobs do.
pub fn kept_lists(subject: Subject, rounds: usize) {
    let mut random = Random::of_test("kept lists");
    let mut counts = Counts::new("kept lists");
    for _ in 0..rounds {
        let story = low_story(&mut random, 6);
        subject.run(&story, &mut counts);
    }
    let names = [
        "switched",
        "kept jobs that were due",
        "kept jobs alive over a switch",
        "kept jobs released when critical",
        "kept jobs that ended in tick D",
        "other low jobs that were due",
        "dropped jobs",
        "12",
    ];
    counts.close(names, rounds / 5);
}

/// Low jobs that last as long as their shares allow, to the tick, and a high job that turns the state critical before
/// them or while they are alive. The kept ones come again and again.
pub fn exact_kept_lists(subject: Subject, rounds: usize) {
    let mut random = Random::of_test("exact kept lists");
    let mut counts = Counts::new("exact kept lists");
    for _ in 0..rounds {
        let (sheet, tasks, high) = an_exact_kept(&mut random);
        let story = exact_kept_story(&mut random, &sheet, &tasks, (high, &[Kind::Endless]), 0);
        subject.run(&story, &mut counts);
    }
    assert_eq!(counts.of("kept jobs that ended in tick D"), counts.of("kept jobs that were due"));
    assert_eq!(counts.of("returned"), 0);
    let names = [
        "switched",
        "kept jobs alive over a switch",
        "kept jobs released when critical",
        "kept jobs that ended in tick D",
    ];
    counts.ask(["dropped jobs", "12"], rounds / 20);
    counts.close(names, rounds);
}

fn an_exact_kept(random: &mut Random) -> (Sheet, Vec<Crafted>, usize) {
    (0..1_000).find_map(|_| exact_kept(random, 1)).expect("one is made")
}

/// A list in which low jobs last to tick D, and jobs of the high task are of some kinds. It goes on until a switch and three
/// of the low deadlines, and for some ticks more.
fn exact_kept_story(
    random: &mut Random,
    sheet: &Sheet,
    tasks: &[Crafted],
    (high, kinds): (usize, &[Kind]),
    more: usize,
) -> Story {
    let plan = planner::plan(sheet).expect("crafted tasks are planned");
    let to_switch = plan.tasks[high].virtual_deadline as usize;
    let low = (0..tasks.len()).filter(|&task| task != high);
    let longest = low.map(|task| sheet.tasks[task].figures.d as usize).max().unwrap_or(0);
    let kinds = |task: usize| match task == high {
        true => kinds.to_vec(),
        false => vec![Kind::Given(tasks[task].overload.clone())],
    };
    let manner = Manner {
        ticks: to_switch + 3 * longest + more,
        paces: vec![Pace::Eager; tasks.len()],
        kinds: (0..tasks.len()).map(kinds).collect(),
        first: tasks.iter().map(|_| random.within(0..=longest)).collect(),
        liars: vec![false; tasks.len()],
        refused: random.once_in(2),
    };
    story(random, sheet, tasks, &manner)
}

/// The record of A (S11) with three nodes that nothing precedes.
pub fn three_nodes() -> Vec<u8> {
    [&[1, 3], &CASE_14[16..26], &[0; 12]].concat()
}

/// Case 13 (S11.13): A alone on two processors, three nodes that nothing precedes, which run one after the other.
pub fn case_13(subject: Subject) {
    let (reply, fresh) = (subject.start)(&Draft { processors: 2, records: vec![three_nodes()] }.bytes());
    assert_eq!(reply, Reply::Done);
    let run = |mut left: [u32; 3]| {
        let (reply, mut state) = subject.dispatcher.release(&fresh, 0);
        assert_eq!(reply, Reply::Done);
        let mut replies = Vec::new();
        for _ in 0..9 {
            let mut board = [0; 4];
            assert_eq!(subject.dispatcher.board(&state, &mut board), Reply::Done);
            let [0, node @ 0..=2, 255, 255] = board else { panic!("{board:?} does not show one node") };
            let node = usize::from(node);
            left[node] -= 1;
            let (reply, next) = subject.dispatcher.tick(&state, &[u32::from(left[node] == 0) << node]);
            replies.push(reply);
            state = next;
        }
        (replies, of_words(&state).expect("a line stays a state"))
    };
    let (replies, state) = run([4, 3, 2]);
    assert_eq!(replies, [Reply::Done; 9]);
    assert!(!state.entries[0].alive && state.entries[0].all_ended() && state.mode == Mode::Typical);
    let (replies, state) = run([4, 3, 3]);
    assert_eq!(replies, [&[Reply::Done; 8][..], &[Reply::Switched(0)]].concat());
    assert!(state.entries[0].alive && state.mode == Mode::Critical);
}

/// High jobs that last as long as the share test allows, to the tick. Each turns the state critical with its tick V, and
/// with its tick D it has ended, the state is typical, and the next one comes.
pub fn exact_lists(subject: Subject, rounds: usize) {
    let mut random = Random::of_test("exact lists");
    let mut counts = Counts::new("exact lists");
    const JOBS: usize = 3;
    for _ in 0..rounds {
        let (sheet, tasks, high) =
            std::iter::repeat_with(|| exact(&mut random, 1)).flatten().next().expect("one is made");
        let kinds = |task: &Crafted| vec![Kind::Given(task.overload.clone())];
        let deadline = tasks[high].task.figures.d as usize;
        let manner = Manner {
            ticks: JOBS * deadline,
            paces: vec![Pace::Eager; 2],
            kinds: tasks.iter().map(kinds).collect(),
            first: vec![0; 2],
            liars: vec![false; 2],
            refused: random.once_in(2),
        };
        subject.run(&story(&mut random, &sheet, &tasks, &manner), &mut counts);
    }
    for name in ["switched", "returned", "high jobs that were due", "high jobs of both modes that ended in tick D"] {
        assert_eq!(counts.of(name), JOBS * rounds, "{name}");
    }
    counts
        .close(["lists with several switches and returns", "dropped jobs", "low jobs released after a return"], rounds);
}

/// A high job that uses its overload budgets up, and a neighbour that turns the state critical at each tick of the
/// job's life in turn, from just before its release on.
pub fn forced_switches(subject: Subject, rounds: usize) {
    let mut random = Random::of_test("forced switches");
    let mut counts = Counts::new("forced switches");
    for _ in 0..rounds {
        let (sheet, tasks) = job_and_neighbour(&mut random);
        let plan = planner::plan(&sheet).expect("crafted tasks are planned");
        let to_switch = plan.tasks[1].virtual_deadline as usize;
        let deadline = tasks[0].task.figures.d as usize;
        let lengths = longest_lasting(&mut random, &sheet, &tasks[0], 0, &Kind::Overload);
        let Some(lengths) = lengths else { continue };
        let own_switch = plan.tasks[0].virtual_deadline as usize;
        for switch in 0..=own_switch {
            let manner = Manner {
                ticks: to_switch + deadline + random.within(0..=2),
                paces: vec![Pace::Eager; 2],
                kinds: vec![vec![Kind::Given(lengths.clone())], vec![Kind::Endless]],
                first: vec![to_switch, switch],
                liars: vec![false, false],
                refused: random.once_in(8),
            };
            let story = story(&mut random, &sheet, &tasks, &manner);
            subject.run(&story, &mut counts);
        }
    }
    counts.close(["switched", "high jobs that were due", "of these ended within one tick of D"], rounds / 2);
}

fn job_and_neighbour(random: &mut Random) -> (Sheet, Vec<Crafted>) {
    loop {
        let scale = random.within(2..=6);
        let tasks: Vec<Crafted> = (0..2).map(|_| crafted_task(random, Level::High, 6, scale)).collect();
        if let Some(made) = sheet_of(random, tasks) {
            return made;
        }
    }
}

#[cfg(test)]
mod tests {
    use super::*;
    use crate::harness::boundary::{start, Independent};

    const SUBJECT: Subject = Subject { dispatcher: &Independent, start };

    #[test]
    fn case_13_of_the_independent_dispatcher() {
        case_13(SUBJECT);
    }

    #[test]
    fn nominal_lists_of_the_independent_dispatcher() {
        nominal_lists(SUBJECT, 100);
    }

    #[test]
    fn overload_lists_of_the_independent_dispatcher() {
        overload_lists(SUBJECT, 100);
    }

    #[test]
    fn wild_lists_of_the_independent_dispatcher() {
        wild_lists(SUBJECT, 100);
    }

    #[test]
    fn kept_lists_of_the_independent_dispatcher() {
        kept_lists(SUBJECT, 100);
    }

    #[test]
    fn exact_kept_lists_of_the_independent_dispatcher() {
        exact_kept_lists(SUBJECT, 100);
    }

    #[test]
    fn exact_lists_of_the_independent_dispatcher() {
        exact_lists(SUBJECT, 100);
    }

    #[test]
    fn forced_switches_of_the_independent_dispatcher() {
        forced_switches(SUBJECT, 20);
    }
}
