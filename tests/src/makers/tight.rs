//! Makers of sheets for the planner: figures near the edge of the share test, many tasks alike, and M near the least
//! that will do.
use crate::makers::random::Random;
use crate::makers::sheets::{forms, valid, PROCESSORS};
use crate::reference::planner::{self, least_deadline, Pair};
use crate::reference::reader::{Figures, Form, Level, Sheet, Task, TASKS};

/// A random list of so many tasks, with the most processors. Often some of the tasks are alike.
pub fn sheet(random: &mut Random, count: usize) -> Sheet {
    let widest = (2 * PROCESSORS / count).clamp(2, PROCESSORS);
    let widest = *random.pick(&[2, 3, 5, widest, widest]);
    let different = if random.once_in(2) { count } else { random.within(1..=count) };
    let forms = forms(random);
    let kinds: Vec<Task> = (0..different).map(|_| task(random, widest.max(2), forms)).collect();
    let tasks = (0..count).map(|i| kinds.get(i).unwrap_or_else(|| random.pick(&kinds)).clone());
    Sheet { processors: PROCESSORS as u8, tasks: tasks.collect() }
}

/// A random list of so many tasks on any number of processors, with graphs of any size.
pub fn with_graphs(random: &mut Random, count: usize) -> Sheet {
    let mut sheet = sheet(random, count);
    sheet.processors = random.within(1..=PROCESSORS) as u8;
    for (task, other) in sheet.tasks.iter_mut().zip(valid(random).tasks) {
        task.masks = other.masks;
    }
    sheet
}

/// A random sheet of high tasks with small typical and large critical shares, which often total far more than M.
pub fn crowded(random: &mut Random) -> Sheet {
    let (count, forms) = (random.within(1..=TASKS), forms(random));
    let widest = random.within(8..=PROCESSORS);
    let processors = *random.pick(&[widest, PROCESSORS]);
    let mut tasks = Vec::new();
    while tasks.len() < count {
        let typical = random.within(1..=(processors / count).clamp(1, widest));
        let least = *random.pick(&[typical, typical.max(3 * widest / 4)]);
        let critical = random.within(least..=widest);
        let form = *random.pick(forms);
        tasks.extend(high_at(random, form, Pair { typical, critical }));
    }
    Sheet { processors: processors as u8, tasks }
}

/// A random sheet in which high tasks that are alike compete for typical shares: low tasks leave them fewer than would
/// give each its least critical share, so that several choices may have the same totals.
pub fn tied(random: &mut Random) -> Sheet {
    loop {
        let forms = forms(random);
        let kinds: Vec<Task> = (0..random.within(1..=2)).map(|_| task(random, 5, forms)).collect();
        let mut tasks: Vec<Task> = (0..random.within(2..=5)).map(|_| random.pick(&kinds).clone()).collect();
        let of_task = |task: &Task| planner::options(task, 12);
        if tasks.iter().any(|task| task.level == Level::Low || of_task(task).is_empty()) {
            continue;
        }
        let least = |task: &Task| of_task(task)[0].typical;
        let cheapest =
            |task: &Task| of_task(task).into_iter().min_by_key(|pair| pair.critical).map_or(0, |p| p.typical);
        let total = |share: &dyn Fn(&Task) -> usize| tasks.iter().map(share).sum::<usize>();
        let (fewest, most) = (total(&least), total(&cheapest));
        if fewest + 1 >= most {
            continue;
        }
        let mut processors = random.within(fewest + 1..=most - 1);
        for _ in 0..random.within(1..=3) {
            let share = random.within(2..=8);
            let low = low_task(random, forms, share);
            tasks.insert(random.within(0..=tasks.len()), low);
            processors += share;
        }
        if processors <= PROCESSORS {
            return Sheet { processors: processors as u8, tasks };
        }
    }
}

/// A random sheet of at most two high tasks and some low ones, often with equal shares. M is near the least that will
/// do, so that the high tasks leave none, few or many processors over.
pub fn mostly_low(random: &mut Random) -> Sheet {
    loop {
        let forms = forms(random);
        let mut tasks: Vec<Task> = (0..random.within(0..=2)).filter_map(|_| high(random, 12, forms)).collect();
        let count = *random.pick(&[1, 2, 3, 4, 6, 9, TASKS - tasks.len()]);
        let widest = random.within(2..=(40 / count).clamp(2, 8));
        let shares: Vec<usize> = (0..random.within(1..=3)).map(|_| random.within(2..=widest)).collect();
        for _ in 0..count {
            let share = *random.pick(&shares);
            let low = low_task(random, forms, share);
            tasks.insert(random.within(0..=tasks.len()), low);
        }
        let sheet = Sheet { processors: PROCESSORS as u8, tasks };
        let Some(least) = least_processors(&sheet) else { continue };
        let processors = least + *random.pick(&[0, 0, 0, 1, 2, 3, 8]);
        return Sheet { processors: processors.min(PROCESSORS) as u8, ..sheet };
    }
}

/// Small figures of a low task that needs just this share, of at least 2.
pub fn low_figures(random: &mut Random, share: usize) -> Figures {
    let (l, rest) = (random.within(1..=9), random.within(2..=9));
    let [d, c, l] = [l + rest, l + share * rest, l].map(|figure| figure as u32);
    Figures { d, cn: c, co: c, ln: l, lo: l }
}

/// A low task of one node with small figures that needs just this share.
fn low_task(random: &mut Random, forms: &[Form], share: usize) -> Task {
    let form = *random.pick(forms);
    Task { level: Level::Low, form, figures: low_figures(random, share), masks: vec![0] }
}

/// A random task that needs about so many processors or fewer: its D is near the least with which some share does.
pub fn task(random: &mut Random, widest: usize, forms: &[Form]) -> Task {
    loop {
        let made = if random.once_in(4) { low(random, widest, forms) } else { high(random, widest, forms) };
        if let Some(task) = made {
            return task;
        }
    }
}

/// About how large the figures of a task are for each processor.
fn scale(random: &mut Random, form: Form) -> usize {
    match form {
        Form::Narrow => *random.pick(&[3, 10, 30, 100, 1_000, 3_000]),
        Form::Wide => *random.pick(&[3, 100, 3_000, 10_000, 30_000, 100_000, 300_000]),
    }
}

fn high(random: &mut Random, widest: usize, forms: &[Form]) -> Option<Task> {
    let critical = random.within(2..=widest);
    let typical = random.within(1..=critical);
    let form = *random.pick(forms);
    high_at(random, form, Pair { typical, critical })
}

/// A high task whose D is near the least with which this pair passes.
fn high_at(random: &mut Random, form: Form, pair: Pair) -> Option<Task> {
    let scale = scale(random, form);
    let ln = random.within(1..=scale);
    let cn = ln + random.within(0..=scale * pair.typical);
    let lo = ln + random.within(0..=scale);
    let co = cn + (lo - ln) + random.within(0..=scale * pair.critical);
    let figures = figures(form, [1, cn, co, ln, lo])?;
    heavy(random, Level::High, form, figures, least_deadline(figures, pair))
}

fn low(random: &mut Random, widest: usize, forms: &[Form]) -> Option<Task> {
    let share = random.within(2..=widest);
    let form = *random.pick(forms);
    let scale = scale(random, form);
    let l = random.within(1..=scale);
    let c = l + random.within(1..=scale * share);
    heavy(random, Level::Low, form, figures(form, [1, c, c, l, l])?, l + (c - l).div_ceil(share))
}

/// The task with its D at the one given or beside it, where it is then lawful and heavy.
fn heavy(random: &mut Random, level: Level, form: Form, given: Figures, d: usize) -> Option<Task> {
    let d = match random.within(0..=7) {
        0 => d.saturating_sub(1),
        1 => d + 1,
        2 => d + random.within(0..=10),
        _ => d,
    };
    let d = d.min(given.co as usize - 1) as u32;
    let masks = vec![0; *random.pick(&[1, 1, 2, 3])];
    (d > 0).then_some(Task { level, form, figures: Figures { d, ..given }, masks })
}

/// The figures in the record's order, where a form holds them.
fn figures(form: Form, all: [usize; 5]) -> Option<Figures> {
    let [d, cn, co, ln, lo] = all.map(|figure| figure as u32);
    let holds = |figure: &usize| (1..=form.limit() as usize).contains(figure);
    all.iter().all(holds).then_some(Figures { d, cn, co, ln, lo })
}

/// The least M for which the sheet is planned; more never harm.
pub fn least_processors(sheet: &Sheet) -> Option<usize> {
    let does = |processors: usize| {
        let sheet = Sheet { processors: processors as u8, tasks: sheet.tasks.clone() };
        planner::is_planned(&sheet)
    };
    let mut fits = [1, 2, 4, 8, 16, 32, PROCESSORS].into_iter().find(|&processors| does(processors))?;
    let mut fails = fits / 2;
    while fails + 1 < fits {
        let middle = (fails + fits) / 2;
        *(if does(middle) { &mut fits } else { &mut fails }) = middle;
    }
    Some(fits)
}
