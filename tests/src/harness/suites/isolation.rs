//! Families of pairs of call lists with tasks in common, to be run on any dispatcher.
use crate::harness::counts::Counts;
use crate::harness::isolation::{Asked, Pair, Run, Unlike};
use crate::harness::suites::Subject;
use crate::makers::common::{any_tasks, side_by_side, sides, steep_task, Side};
use crate::makers::crafts::Kind;
use crate::makers::random::Random;
use crate::makers::sheets::PROCESSORS;
use crate::makers::world::{Manner, Pace, Story};
use crate::reference::reader::Form;
use crate::reference::reader::Level::{self, High, Low};

/// Two sheets with tasks in common, and a list over each.
struct Lists {
    sides: [Side; 2],
    stories: [Story; 2],
}

/// A pair of lists in which a common task is not alike.
#[derive(Debug)]
pub struct Caught {
    /// The pairs before it.
    pub after: usize,
    pub unlike: Unlike,
    /// The task's numbers.
    pub numbers: [usize; 2],
    pub stories: [Story; 2],
}

pub type Held = Result<(), Box<Caught>>;

/// Runs so many pairs of lists, and holds each common task of each to be alike.
fn hold_pairs(
    subject: Subject,
    (test, asked): (&'static str, Asked),
    rounds: usize,
    made: fn(&mut Random) -> Lists,
) -> Result<Counts, Box<Caught>> {
    let mut random = Random::of_test(test);
    let mut counts = Counts::new(test);
    for _ in 0..rounds {
        let Lists { sides, stories } = made(&mut random);
        let fresh = stories.each_ref().map(|story| subject.fresh(story));
        let run = |list: usize| Run::new(subject.dispatcher, &fresh[list], &stories[list].calls, &sides[list].common);
        let [one, other] = [run(0), run(1)];
        for i in 0..sides[0].common.len() {
            if let Err(unlike) = (Pair { runs: [&one, &other], i, asked }).hold(&mut counts) {
                let numbers = sides.each_ref().map(|side| side.common[i]);
                return Err(Box::new(Caught { after: counts.of("pairs"), unlike, numbers, stories }));
            }
            count_task(&sides, i, &mut counts);
        }
    }
    Ok(counts)
}

/// Counts a common task by what it is, and by what differs between the sheets.
fn count_task(sides: &[Side; 2], i: usize, counts: &mut Counts) {
    let [one, other] = sides.each_ref().map(|side| side.common[i]);
    let critical = [(&sides[0], one), (&sides[1], other)].map(|(side, task)| side.plan.tasks[task].shares.critical);
    let task = &sides[0].sheet.tasks[one];
    counts.add(match (task.level, critical) {
        (High, _) => "high tasks",
        (Low, [0, 0]) => "low tasks kept in neither",
        (Low, [0, _] | [_, 0]) => "low tasks kept in one",
        (Low, _) => "low tasks kept in both",
    });
    counts.add(if task.form == Form::Wide { "wide tasks" } else { "narrow tasks" });
    let mut differ = |name: &str, of: &dyn Fn(&Side, usize) -> usize| {
        if of(&sides[0], one) != of(&sides[1], other) {
            counts.add(name);
        }
    };
    differ("other numbers", &|_, task| task);
    differ("other M", &|side, _| side.sheet.processors.into());
    differ("other n", &|side, _| side.tasks.len());
    differ("other typical offsets", &|side, task| side.plan.typical_blocks()[task].0);
    differ("other critical offsets", &|side, task| side.plan.critical_blocks()[task].0);
    differ("other critical shares", &|side, task| side.plan.tasks[task].shares.critical);
    for side in sides {
        count_neighbours(side, counts);
    }
}

/// Counts a sheet by the kinds of tasks that are not common.
fn count_neighbours(side: &Side, counts: &mut Counts) {
    let mut any = |name: &str, is_such: &dyn Fn(usize) -> bool| {
        if side.others().any(is_such) {
            counts.add(name);
        }
    };
    let is_high = |task: usize| side.sheet.tasks[task].level == High;
    let is_kept = |task: usize| !is_high(task) && side.plan.tasks[task].shares.critical > 0;
    any("beside high tasks", &is_high);
    any("beside kept tasks", &is_kept);
    any("beside low tasks that are not kept", &|task| !is_high(task) && !is_kept(task));
    any("beside wide tasks", &|task| side.sheet.tasks[task].form == Form::Wide);
    if side.tasks.len() == 1 {
        counts.add("alone");
    }
}

const HIGH_KINDS: [Kind; 6] = [Kind::Nominal, Kind::Overload, Kind::Overload, Kind::Least, Kind::Beyond, Kind::Endless];
const LOW_KINDS: [Kind; 5] = [Kind::Nominal, Kind::Nominal, Kind::Least, Kind::Beyond, Kind::Endless];
const PACES: [Pace; 6] = [Pace::Eager, Pace::Eager, Pace::Eager, Pace::Idle, Pace::Once, Pace::BeforeReturn];

/// How a list over a sheet is made. High jobs of quiet tasks keep their nominal budgets under true reports; all others do
/// as they please.
fn manner(random: &mut Random, side: &Side, ticks: usize, is_quiet: impl Fn(usize) -> bool) -> Manner {
    let all = 0..side.tasks.len();
    let level = |task: usize| side.sheet.tasks[task].level;
    let is_bound = |task: usize| is_quiet(task) && level(task) == High;
    let kinds = |task: usize| match level(task) {
        High if is_bound(task) => vec![Kind::Nominal],
        High => HIGH_KINDS.to_vec(),
        Low => LOW_KINDS.to_vec(),
    };
    Manner {
        ticks,
        paces: all.clone().map(|_| *random.pick(&PACES)).collect(),
        kinds: all.clone().map(kinds).collect(),
        first: all.clone().map(|_| if random.once_in(2) { 0 } else { random.within(0..=ticks / 2) }).collect(),
        liars: all.map(|task| !is_bound(task) && random.once_in(3)).collect(),
        refused: !random.once_in(4),
    }
}

/// The longest deadline of the common tasks, where it is not too long.
fn longest(random: &mut Random, sides: &[Side; 2]) -> usize {
    let deadlines = sides[0].common.iter().map(|&task| sides[0].sheet.tasks[task].figures.d as usize);
    deadlines.max().unwrap_or(0).min(random.within(20..=60))
}

/// The most processors of a task, where there are at most so many tasks.
fn widest(random: &mut Random, tasks: usize) -> usize {
    random.within(2..=(PROCESSORS / tasks).clamp(2, 6))
}

/// So many levels, each one of these.
fn levels(random: &mut Random, of: &[Level], count: usize) -> Vec<Level> {
    (0..count).map(|_| *random.pick(of)).collect()
}

/// The first sheets that are made.
fn made(random: &mut Random, made: fn(&mut Random) -> Option<[Side; 2]>) -> [Side; 2] {
    (0..10_000).find_map(|_| made(random)).expect("one is made")
}

fn have_same_shares(sides: &[Side; 2]) -> bool {
    sides[0].shares().eq(sides[1].shares())
}

/// Common tasks of every kind, and none, few or many others in each sheet.
fn any_sides(random: &mut Random) -> Option<[Side; 2]> {
    let common = *random.pick(&[&[High][..], &[Low], &[Low, High], &[High, High], &[Low, Low, High]]);
    let of_others = *random.pick(&[&[Low][..], &[High], &[Low, High]]);
    let counts = [0, 1].map(|_| *random.pick(&[0, 1, 1, 2, 2, 3, 5, 8, 13]));
    let widest = widest(random, common.len() + counts[0].max(counts[1]));
    let common = any_tasks(random, common, widest);
    let others = counts.map(|count| {
        let levels = levels(random, of_others, count);
        any_tasks(random, &levels, widest)
    });
    sides(random, common, others).filter(have_same_shares)
}

/// Others do as they please, or the high ones among them are quiet. In some lists the common tasks too do as they please
/// from some tick on.
fn any_lists(random: &mut Random) -> Lists {
    let sides = made(random, any_sides);
    let ticks = random.within(1..=4) * longest(random, &sides);
    let quiet = random.once_in(2);
    let manners =
        sides.each_ref().map(|side| manner(random, side, ticks, |task| quiet && !side.common.contains(&task)));
    let bound = if random.once_in(6) { random.within(0..=ticks) } else { ticks };
    let stories = side_by_side(random, &sides, &manners, bound);
    Lists { sides, stories }
}

/// What each family meets often.
const OFTEN: [&str; 21] = [
    "high tasks",
    "low tasks kept in both",
    "wide tasks",
    "narrow tasks",
    "other numbers",
    "other M",
    "other n",
    "other typical offsets",
    "other critical offsets",
    "beside high tasks",
    "beside kept tasks",
    "beside low tasks that are not kept",
    "beside wide tasks",
    "jobs that ended",
    "pairs with other numbers of calls",
    "11 in one list alone",
    "13 in one list alone",
    "14 in one list alone",
    "15 in one list alone",
    "13 of the task in one list alone",
    "15 of the task in one list alone",
];

/// Common tasks of every kind beside others of every kind.
pub fn any_pairs(subject: Subject, rounds: usize) -> Held {
    let counts = hold_pairs(subject, ("any pairs", Asked::Alike), rounds, any_lists)?;
    let of_some = [
        "alone",
        "jobs alive over a return",
        "jobs dropped by a switch",
        "12 of the task in one list alone",
        "pairs parted by the modes that then run other nodes",
    ];
    let of_many = [
        "low tasks kept in neither",
        "jobs alive over a switch",
        "switches",
        "returns",
        "12 in one list alone",
        "pairs parted by the modes",
        "pairs parted by releases or reports",
    ];
    counts.ask(of_some, rounds / 200);
    counts.ask(of_many, rounds / 50);
    counts.close(OFTEN, rounds / 10);
    Ok(())
}

/// Common tasks, and in each sheet low ones and a high one of its own with nodes side by side.
fn driven_sides(random: &mut Random) -> Option<[Side; 2]> {
    let common = *random.pick(&[&[High][..], &[Low], &[Low], &[Low, Low], &[Low, High]]);
    let counts = [0, 1].map(|_| *random.pick(&[0, 0, 1, 2, 6]));
    let widest = widest(random, common.len() + 1 + counts[0].max(counts[1]));
    let common = any_tasks(random, common, widest);
    let others = counts.map(|count| {
        let mut others = any_tasks(random, &vec![Low; count], widest);
        others.insert(random.within(0..=count), steep_task(random));
        others
    });
    sides(random, common, others).filter(have_same_shares)
}

/// The high task of a sheet that is not common.
fn driver(side: &Side) -> usize {
    side.others().find(|&task| side.sheet.tasks[task].level == High).expect("there is one")
}

/// The high task of each sheet's own turns the state critical with the same tick of both lists, and typical again with the
/// same, where no common one holds it back.
fn driven_lists(random: &mut Random) -> Lists {
    let sides = made(random, driven_sides);
    let longest = longest(random, &sides);
    let to_switch = sides.each_ref().map(|side| side.plan.tasks[driver(side)].virtual_deadline as usize);
    let switch = to_switch[0].max(to_switch[1]) + random.within(0..=longest);
    let back = switch + 2 + random.within(0..=longest);
    let ticks = back + random.within(1..=longest);
    let manners = [0, 1].map(|list| {
        let side = &sides[list];
        let (driver, first) = (driver(side), switch - to_switch[list]);
        let mut manner = manner(random, side, ticks, |_| true);
        // The first node runs from the first tick on, and the others end before it.
        let mut lengths = vec![1; side.sheet.tasks[driver].masks.len()];
        lengths[0] = (back - first) as u32;
        (manner.first[driver], manner.paces[driver]) = (first, Pace::Once);
        manner.kinds[driver] = vec![Kind::Given(lengths)];
        manner
    });
    let stories = side_by_side(random, &sides, &manners, ticks);
    Lists { sides, stories }
}

/// Switches and returns with the same ticks of both lists, by tasks that are not common.
pub fn driven_pairs(subject: Subject, rounds: usize) -> Held {
    let counts = hold_pairs(subject, ("driven pairs", Asked::Alike), rounds, driven_lists)?;
    let of_many = [
        "low tasks kept in neither",
        "jobs alive over a switch",
        "jobs alive over a return",
        "jobs dropped by a switch",
        "12 in one list alone",
        "12 of the task in one list alone",
    ];
    assert_eq!(counts.of("pairs parted by releases or reports"), 0);
    counts.ask(["switches by other tasks", "returns"], rounds / 2);
    counts.ask(of_many, rounds / 50);
    counts.close(OFTEN, rounds / 10);
    Ok(())
}

/// A task alone on a sheet, and the same task in a full one, with the same typical share.
fn alone_sides(random: &mut Random) -> Option<[Side; 2]> {
    let count = *random.pick(&[1, 2, 3, 5, 8, 13]);
    let widest = widest(random, 1 + count);
    let level = *random.pick(&[High, Low]);
    let common = any_tasks(random, &[level], widest);
    let levels = levels(random, &[Low, High], count);
    let mut others = [Vec::new(), any_tasks(random, &levels, widest)];
    if random.once_in(2) {
        others.reverse();
    }
    let typical = |side: &Side| side.shares().map(|shares| shares.typical).sum::<usize>();
    sides(random, common, others).filter(|sides| typical(&sides[0]) == typical(&sides[1]))
}

/// High jobs keep their nominal budgets, so that nothing switches. In some lists they do as they please.
fn alone_lists(random: &mut Random) -> Lists {
    let sides = made(random, alone_sides);
    let ticks = random.within(1..=4) * longest(random, &sides);
    let quiet = !random.once_in(3);
    let manners = sides.each_ref().map(|side| manner(random, side, ticks, |_| quiet));
    let stories = side_by_side(random, &sides, &manners, ticks);
    Lists { sides, stories }
}

/// A task alone and in a full sheet, as long as nothing switches.
pub fn alone_and_full(subject: Subject, rounds: usize) -> Held {
    let counts = hold_pairs(subject, ("alone and full", Asked::Typical), rounds, alone_lists)?;
    assert_eq!(counts.of("pairs parted by releases or reports"), 0);
    counts.ask(["alone"], rounds);
    counts.ask(["low tasks kept in one", "other critical shares", "pairs parted by the modes"], rounds / 50);
    counts.ask(["pairs parted by the modes that then run other nodes"], rounds / 200);
    counts.close(OFTEN, rounds / 10);
    Ok(())
}

#[cfg(test)]
mod tests {
    use super::*;
    use crate::harness::boundary::{start, Independent};

    const SUBJECT: Subject = Subject { dispatcher: &Independent, start };

    #[test]
    fn any_pairs_of_the_independent_dispatcher() {
        any_pairs(SUBJECT, 100).expect("tasks are alike");
    }

    #[test]
    fn driven_pairs_of_the_independent_dispatcher() {
        driven_pairs(SUBJECT, 100).expect("tasks are alike");
    }

    #[test]
    fn alone_and_full_of_the_independent_dispatcher() {
        alone_and_full(SUBJECT, 100).expect("tasks are alike");
    }
}
