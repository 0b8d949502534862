//! Families of call lists in which the state turns typical again, to be run on any dispatcher.
use crate::harness::counts::Counts;
use crate::harness::suites::{an_exact_kept, exact_kept_story, longest, Subject};
use crate::makers::crafts::{crafted_by, crafted_task, exact_pair, flat_task, Crafted, Kind};
use crate::makers::random::Random;
use crate::makers::world::{longest_lasting, story, Manner, Pace, Story};
use crate::reference::planner;
use crate::reference::reader::Level;

/// A random list over a random sheet of few high tasks, many deadlines long. High jobs keep their overload budgets, and all
/// reports are true, so that the state turns critical and typical again, often many times.
pub fn returning_story(random: &mut Random, scale: usize) -> Story {
    let count = *random.pick(&[1, 2, 2, 3, 3, 4, 6]);
    let (sheet, tasks) = crafted_by(random, count, |random, widest| match random.within(0..=3) {
        0 => flat_task(random, widest, scale),
        1 => crafted_task(random, Level::High, widest, scale),
        _ => crafted_task(random, Level::Low, widest, scale),
    });
    let kinds = |task: &Crafted| match task.task.level {
        Level::High => vec![Kind::Overload, Kind::Overload, Kind::Nominal, Kind::Least],
        Level::Low => vec![Kind::Nominal, Kind::Nominal, Kind::Nominal, Kind::Beyond],
    };
    let manner = Manner {
        ticks: random.within(4..=8) * longest(&sheet),
        paces: tasks.iter().map(|_| *random.pick(&[Pace::Eager, Pace::Idle, Pace::BeforeReturn])).collect(),
        kinds: tasks.iter().map(kinds).collect(),
        first: tasks.iter().map(|_| random.within(0..=longest(&sheet))).collect(),
        liars: vec![false; count],
        refused: random.once_in(2),
    };
    story(random, &sheet, &tasks, &manner)
}

/// Many switches and returns in a list, over sheets of few high tasks and some low ones.
pub fn return_lists(subject: Subject, rounds: usize) {
    let mut random = Random::of_test("return lists");
    let mut counts = Counts::new("return lists");
    for round in 0..rounds {
        let scale = if round % 100 == 99 { 40 } else { 6 };
        let story = returning_story(&mut random, scale);
        subject.run(&story, &mut counts);
    }
    let of_some = [
        "high jobs released just before a return",
        "returns that a release put off",
        "high jobs that ended with a return in tick D",
        "low jobs alive over a return after tick D",
        "high jobs of both modes that ended in tick D",
        "kept jobs of both modes that ended in tick D",
    ];
    let of_many = [
        "switched",
        "returned",
        "lists with several switches and returns",
        "returns that were due",
        "high jobs that were due",
        "high jobs released just after a return",
        "late jobs that ended with a return",
        "kept jobs that were due",
        "kept jobs alive over a return",
        "low jobs released after a return",
        "dropped jobs",
    ];
    counts.ask(of_some, rounds / 100);
    counts.close(of_many, rounds / 10);
}

/// A high job that is released just before the tick with which another one turns the state critical. It has the longest
/// deadline and lasts to its tick D, so that the return is as late as it may be: one tick before that many after the switch.
pub fn late_returns(subject: Subject, rounds: usize) {
    let mut random = Random::of_test("late returns");
    let mut counts = Counts::new("late returns");
    for _ in 0..rounds {
        let made = (0..10_000).find_map(|_| exact_pair(&mut random, 1));
        let (sheet, tasks, [overrunning, longest]) = made.expect("one is made");
        let plan = planner::plan(&sheet).expect("crafted tasks are planned");
        let to_switch = plan.tasks[overrunning].virtual_deadline as usize;
        let deadline = tasks[longest].task.figures.d as usize;
        let mut first = vec![random.within(0..=deadline); 3];
        (first[overrunning], first[longest]) = (0, to_switch - 1);
        let mut paces = vec![Pace::Eager; 3];
        (paces[overrunning], paces[longest]) = (Pace::Once, Pace::Once);
        let manner = Manner {
            ticks: to_switch - 1 + deadline + random.within(0..=deadline),
            paces,
            kinds: tasks.iter().map(|task| vec![Kind::Given(task.overload.clone())]).collect(),
            first,
            liars: vec![false; 3],
            refused: random.once_in(2),
        };
        subject.run(&story(&mut random, &sheet, &tasks, &manner), &mut counts);
    }
    for name in ["switched", "returned", "returns that were due", "returns one tick before the longest D"] {
        assert_eq!(counts.of(name), rounds, "{name}");
    }
    counts.close(["high jobs of both modes that ended in tick D"], 2 * rounds);
}

/// Low jobs that last as long as their shares allow, to the tick, and high ones that end, so that the state turns critical
/// and typical again while the low ones are alive. The kept ones come again and again.
pub fn exact_kept_returns(subject: Subject, rounds: usize) {
    let mut random = Random::of_test("exact kept returns");
    let mut counts = Counts::new("exact kept returns");
    for _ in 0..rounds {
        let (sheet, tasks, high) = an_exact_kept(&mut random);
        let overrun = longest_lasting(&mut random, &sheet, &tasks[high], high, &Kind::Overload).map(Kind::Given);
        let kinds: Vec<Kind> = [Kind::Overload, Kind::Least].into_iter().chain(overrun).collect();
        let more = 3 * tasks[high].task.figures.d as usize;
        let story = exact_kept_story(&mut random, &sheet, &tasks, (high, &kinds), more);
        subject.run(&story, &mut counts);
    }
    assert_eq!(counts.of("kept jobs that ended in tick D"), counts.of("kept jobs that were due"));
    let names = [
        "switched",
        "returned",
        "kept jobs alive over a switch",
        "kept jobs alive over a return",
        "kept jobs of both modes that ended in tick D",
    ];
    counts.ask(["lists with several switches and returns", "low jobs released after a return"], rounds / 10);
    counts.close(names, rounds / 2);
}

/// A kept job that lasts as long as its share allows, to the tick, and a high job that turns the state critical at each tick
/// of its life in turn, from just before its release on, and typical again some ticks later.
pub fn forced_returns(subject: Subject, rounds: usize) {
    let mut random = Random::of_test("forced returns");
    let mut counts = Counts::new("forced returns");
    for _ in 0..rounds {
        let (sheet, tasks, high) = an_exact_kept(&mut random);
        let plan = planner::plan(&sheet).expect("crafted tasks are planned");
        let is_kept = |task: &usize| *task != high && plan.tasks[*task].shares.critical > 0;
        let kept = (0..tasks.len()).find(is_kept).expect("one is kept");
        let (to_switch, deadline) = (plan.tasks[high].virtual_deadline as usize, tasks[kept].task.figures.d as usize);
        for switch in 0..=deadline {
            // The first node runs from the first tick on, so that the job is alive for so long at least.
            let mut lengths = vec![1; tasks[high].task.masks.len()];
            lengths[0] = (to_switch + random.within(1..=deadline)) as u32;
            let kind = |task: usize| match task == high {
                true => Kind::Given(lengths.clone()),
                false => Kind::Given(tasks[task].overload.clone()),
            };
            let first = |task: usize| if task == high { switch } else { to_switch };
            let manner = Manner {
                ticks: to_switch + 2 * deadline,
                paces: vec![Pace::Once; tasks.len()],
                kinds: (0..tasks.len()).map(|task| vec![kind(task)]).collect(),
                first: (0..tasks.len()).map(first).collect(),
                liars: vec![false; tasks.len()],
                refused: random.once_in(8),
            };
            subject.run(&story(&mut random, &sheet, &tasks, &manner), &mut counts);
        }
    }
    assert_eq!(counts.of("kept jobs that ended in tick D"), counts.of("kept jobs that were due"));
    let names = [
        "returned",
        "kept jobs alive over a switch",
        "kept jobs alive over a return",
        "kept jobs released when critical",
        "kept jobs of both modes that ended in tick D",
    ];
    counts.close(names, rounds);
}

#[cfg(test)]
mod tests {
    use super::*;
    use crate::harness::boundary::{start, Independent};

    const SUBJECT: Subject = Subject { dispatcher: &Independent, start };

    #[test]
    fn return_lists_of_the_independent_dispatcher() {
        return_lists(SUBJECT, 200);
    }

    #[test]
    fn exact_kept_returns_of_the_independent_dispatcher() {
        exact_kept_returns(SUBJECT, 100);
    }

    #[test]
    fn forced_returns_of_the_independent_dispatcher() {
        forced_returns(SUBJECT, 10);
    }

    #[test]
    fn late_returns_of_the_independent_dispatcher() {
        late_returns(SUBJECT, 50);
    }
}
