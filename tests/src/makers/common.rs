//! Makers of two sheets with tasks in common, each with the same record in both, and of two lists of calls over them in
//! which these tasks do alike and all others do as they please.
use crate::makers::crafts::{crafted_task, flat_task, in_forms, sheet, Crafted};
use crate::makers::random::Random;
use crate::makers::sheets::PROCESSORS;
use crate::makers::tight::{self, least_processors};
use crate::makers::world::{Manner, Story, Telling};
use crate::reference::planner::{self, Pair, Plan};
use crate::reference::reader::{Form, Level, Sheet, Task};

/// One of the two sheets.
pub struct Side {
    pub sheet: Sheet,
    pub plan: Plan,
    pub tasks: Vec<Crafted>,
    /// The number of each common task.
    pub common: Vec<usize>,
}

impl Side {
    /// The common tasks as they stand among others, in any order; none where no plan has room for them.
    fn of(random: &mut Random, common: &[Crafted], mut others: Vec<Crafted>) -> Option<Side> {
        in_forms(random, &mut others);
        let mut tasks: Vec<(Option<usize>, Crafted)> = others.into_iter().map(|task| (None, task)).collect();
        for (i, task) in common.iter().enumerate() {
            tasks.insert(random.within(0..=tasks.len()), (Some(i), task.clone()));
        }
        let number = |i| tasks.iter().position(|(place, _)| *place == Some(i)).expect("it was put in");
        let common = (0..common.len()).map(number).collect();
        let tasks: Vec<Crafted> = tasks.into_iter().map(|(_, task)| task).collect();
        let mut sheet = sheet(PROCESSORS, &tasks);
        let processors = least_processors(&sheet)? + *random.pick(&[0, 0, 0, 0, 1, 2, 8]);
        sheet.processors = processors.min(PROCESSORS) as u8;
        let plan = planner::plan(&sheet).expect("the least processors do");
        Some(Side { sheet, plan, tasks, common })
    }

    /// The shares of each common task.
    pub fn shares(&self) -> impl Iterator<Item = Pair> + '_ {
        self.common.iter().map(|&task| self.plan.tasks[task].shares)
    }

    /// The tasks that are not common.
    pub fn others(&self) -> impl Iterator<Item = usize> + '_ {
        (0..self.tasks.len()).filter(|task| !self.common.contains(task))
    }
}

/// Two sheets of the common tasks and of others for each; none where one has no plan.
pub fn sides(random: &mut Random, mut common: Vec<Crafted>, others: [Vec<Crafted>; 2]) -> Option<[Side; 2]> {
    in_forms(random, &mut common);
    let [first, second] = others;
    Some([Side::of(random, &common, first)?, Side::of(random, &common, second)?])
}

/// A random task of each of the levels, of any kind, that gets along with about so many processors.
pub fn any_tasks(random: &mut Random, levels: &[Level], widest: usize) -> Vec<Crafted> {
    let task = |&level: &Level| match (level, random.within(0..=7)) {
        (_, 0) => large_task(random, level, widest),
        (Level::High, 1) => flat_task(random, widest, 6),
        (Level::High, 2..=4) => steep_task(random),
        _ => crafted_task(random, level, widest, 6),
    };
    levels.iter().map(task).collect()
}

/// A random high task of nodes side by side that needs twice as many processors in the critical state as in the typical
/// one, or more, so that few are left over for low tasks.
pub fn steep_task(random: &mut Random) -> Crafted {
    loop {
        let made = flat_task(random, 8, 6);
        let is_flat = made.task.masks.iter().all(|&mask| mask == 0);
        if is_flat && cheapest(&made.task).is_some_and(|shares| shares.critical >= 2 * shares.typical) {
            return made;
        }
    }
}

/// A random task with a figure that only the wide form holds, of few nodes side by side.
fn large_task(random: &mut Random, level: Level, widest: usize) -> Crafted {
    loop {
        let task = tight::task(random, widest, &[Form::Wide]);
        if task.level != level || task.figures.co <= Form::Narrow.limit() {
            continue;
        }
        if let Some(shares) = cheapest(&task) {
            let lengths = vec![1; task.masks.len()];
            return Crafted::of(task, lengths.clone(), lengths, shares);
        }
    }
}

/// The shares that a task gets where there are processors enough.
fn cheapest(task: &Task) -> Option<Pair> {
    planner::options(task, PROCESSORS).into_iter().min_by_key(|pair| (pair.critical, pair.typical))
}

/// Two lists of as many ticks. In the second the jobs and the reports of the common tasks are those of the first, as far as
/// its own state takes them, until so many ticks are done; from then on they do as they please. The lists end where the
/// standing states differ.
pub fn side_by_side(random: &mut Random, sides: &[Side; 2], manners: &[Manner; 2], bound: usize) -> [Story; 2] {
    let [mut first, mut second] = [0, 1].map(|i| Telling::new(&sides[i].sheet, &sides[i].tasks, &manners[i]));
    for tick in 0..manners[0].ticks {
        if first.state.mode != second.state.mode {
            break;
        }
        let pairs = sides[0].common.iter().copied().zip(sides[1].common.iter().copied());
        let pairs: Vec<(usize, usize)> = pairs.filter(|_| tick < bound).collect();
        first.refused(random);
        second.refused(random);
        for task in 0..first.jobs.len() {
            first.next_job(random, task);
        }
        follow_jobs(random, &first, &mut second, &pairs);
        first.refused(random);
        second.refused(random);
        let [told, mut reports] = [&mut first, &mut second].map(|telling| telling.reports(random));
        for (there, here) in pairs {
            second.jobs[here].clone_from(&first.jobs[there]);
            reports[here] = second.state.running(here).into_iter().map(|v| told[there] & 1 << v).sum();
        }
        first.tick(told);
        second.tick(reports);
    }
    [first.story, second.story]
}

/// Begins the next jobs of all tasks: of each pair the second's, if the first's has begun, and those of the others as they
/// come.
fn follow_jobs(random: &mut Random, first: &Telling, second: &mut Telling, pairs: &[(usize, usize)]) {
    for task in 0..second.jobs.len() {
        match pairs.iter().find(|(_, here)| *here == task) {
            Some((there, _)) => first.begun(*there).into_iter().for_each(|job| second.take_on(task, job)),
            None => second.next_job(random, task),
        }
    }
}
