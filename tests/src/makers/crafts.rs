//! Makers of sheets for whole lists of calls: the lengths of a task's nodes come first, and its figures are what they
//! need, so that some jobs use the budgets up exactly.
use crate::makers::lengths::{filled, Budget, Filling};
use crate::makers::random::Random;
use crate::makers::sheets::{forms, PROCESSORS};
use crate::makers::tight::low_figures;
use crate::reference::dispatcher::NODES;
use crate::reference::planner::{self, least_deadline, Pair};
use crate::reference::reader::{Figures, Form, Level, Sheet, Task};

/// A task, and lengths that came first: its figures are their work and span.
#[derive(Clone, Debug)]
pub struct Crafted {
    pub task: Task,
    nominal: Vec<u32>,
    pub overload: Vec<u32>,
    /// Shares that just do.
    shares: Pair,
}

/// How long a job's nodes are.
#[derive(Clone, Debug)]
pub enum Kind {
    Nominal,
    Overload,
    /// More than the overload budgets allow.
    Beyond,
    /// No node ever ends.
    Endless,
    /// A tick for each node, where the overload budgets allow it.
    Least,
    Given(Vec<u32>),
}

impl Crafted {
    /// A task with these times of its nodes, and shares that do.
    pub fn of(task: Task, nominal: Vec<u32>, overload: Vec<u32>, shares: Pair) -> Crafted {
        Crafted { task, nominal, overload, shares }
    }

    fn budget(&self, kind: &Kind) -> Budget {
        let Figures { cn, co, ln, lo, .. } = self.task.figures;
        match kind {
            Kind::Nominal => Budget { work: cn, span: ln },
            _ => Budget { work: co, span: lo },
        }
    }

    /// Lengths of a kind; none where the budgets are too small for the graph.
    pub fn lengths(&self, random: &mut Random, kind: &Kind) -> Option<Vec<u32>> {
        let (budget, k) = (self.budget(kind), self.task.masks.len());
        let exact = match kind {
            Kind::Given(lengths) => return Some(lengths.clone()),
            Kind::Endless => return Some(vec![u32::MAX; k]),
            Kind::Least => return Some(vec![1; k]).filter(|lengths| budget.allows(&self.task.masks, lengths)),
            Kind::Nominal => &self.nominal,
            Kind::Overload | Kind::Beyond => &self.overload,
        };
        let mut lengths = if budget.allows(&self.task.masks, exact) && random.once_in(3) {
            exact.clone()
        } else {
            let filling = *random.pick(&[Filling::Random, Filling::Even, Filling::LastFirst]);
            filled(random, &self.task.masks, budget, filling)?
        };
        if let Kind::Beyond = kind {
            let v = random.within(0..=lengths.len() - 1);
            lengths[v] += random.within(1..=self.task.figures.d as usize) as u32;
        }
        Some(lengths)
    }
}

/// Random tasks of some levels, and M with which they are accepted: the least that their shares need, or a little more.
pub fn crafted(random: &mut Random, levels: &[Level], count: usize, scale: usize) -> (Sheet, Vec<Crafted>) {
    crafted_by(random, count, |random, widest| {
        let level = *random.pick(levels);
        crafted_task(random, level, widest, scale)
    })
}

/// The same of so many tasks of a maker, which is given the most processors of a task.
pub fn crafted_by(
    random: &mut Random,
    count: usize,
    made: impl Fn(&mut Random, usize) -> Crafted,
) -> (Sheet, Vec<Crafted>) {
    loop {
        let widest = random.within(2..=(PROCESSORS / count).clamp(2, 8));
        let tasks: Vec<Crafted> = (0..count).map(|_| made(random, widest)).collect();
        if let Some(made) = sheet_of(random, tasks) {
            return made;
        }
    }
}

/// The sheet of some tasks, where there are processors enough. Often some deadlines in turn are made the least with
/// which the sheet is accepted.
pub fn sheet_of(random: &mut Random, mut tasks: Vec<Crafted>) -> Option<(Sheet, Vec<Crafted>)> {
    let processors = needed(&tasks) + *random.pick(&[0, 0, 1, 2]);
    if processors > PROCESSORS {
        return None;
    }
    in_forms(random, &mut tasks);
    let mut sheet = sheet(processors, &tasks);
    let count = tasks.len();
    let tightened = if random.once_in(4) { 0 } else { count.min(5) };
    let first = random.within(0..=count - 1);
    for i in (first..first + tightened).map(|i| i % count) {
        tighten(&mut sheet, i);
        tasks[i].task.figures.d = sheet.tasks[i].figures.d;
    }
    Some((sheet, tasks))
}

/// Gives the tasks the forms of one sheet, each a form that holds its figures, of which CO is the largest.
pub fn in_forms(random: &mut Random, tasks: &mut [Crafted]) {
    let forms = forms(random);
    for Crafted { task, .. } in tasks {
        let form = *random.pick(forms);
        task.form = if task.figures.co > form.limit() { Form::Wide } else { form };
    }
}

/// The processors that the tasks' shares need.
fn needed(tasks: &[Crafted]) -> usize {
    let total = |share: fn(&Pair) -> usize| tasks.iter().map(|task| share(&task.shares)).sum::<usize>();
    total(|shares| shares.typical).max(total(|shares| shares.critical))
}

pub fn sheet(processors: usize, tasks: &[Crafted]) -> Sheet {
    Sheet { processors: processors as u8, tasks: tasks.iter().map(|crafted| crafted.task.clone()).collect() }
}

/// Makes a task's deadline the least with which the sheet is accepted; more never harms.
fn tighten(sheet: &mut Sheet, task: usize) {
    let (mut fails, mut fits) = (0, sheet.tasks[task].figures.d);
    while fails + 1 < fits {
        let middle = (fails + fits) / 2;
        sheet.tasks[task].figures.d = middle;
        *(if planner::is_planned(sheet) { &mut fits } else { &mut fails }) = middle;
    }
    sheet.tasks[task].figures.d = fits;
}

/// A random task that gets along with so many processors.
pub fn crafted_task(random: &mut Random, level: Level, widest: usize, scale: usize) -> Crafted {
    loop {
        let critical = random.within(2..=widest);
        let shares = match level {
            Level::Low => Pair { typical: critical, critical: 0 },
            Level::High => Pair { typical: random.within(1..=critical), critical },
        };
        let graph = graph(random, shares.typical.max(shares.critical));
        if let Some(crafted) = try_task(random, level, shares, graph, scale) {
            return crafted;
        }
    }
}

/// A random high task that gets along with so many processors, of nodes side by side. In the critical state it has a
/// processor for each, so that a job of the least lengths ends with its first tick.
pub fn flat_task(random: &mut Random, widest: usize, scale: usize) -> Crafted {
    loop {
        let critical = random.within(2..=widest);
        let shares = Pair { typical: random.within(1..=critical), critical };
        let masks = vec![0; random.within(2..=critical)];
        if let Some(crafted) = try_task(random, Level::High, shares, (masks, 0), scale) {
            return crafted;
        }
    }
}

/// A random task with these shares, and a graph as `graph` gives it.
fn try_task(
    random: &mut Random,
    level: Level,
    shares: Pair,
    (mut masks, fan): (Vec<u32>, usize),
    scale: usize,
) -> Option<Crafted> {
    let nominal = nominal_lengths(random, masks.len(), fan, scale);
    let overload = match level {
        Level::Low => nominal.clone(),
        Level::High => overload_lengths(random, &nominal, fan, scale),
    };
    let [n, o] = [&nominal, &overload].map(|lengths| Budget::of(&masks, lengths));
    let mut figures = Figures { d: 1, cn: n.work, co: o.work, ln: n.span, lo: o.span };
    let d = match level {
        Level::Low => (n.span + (n.work - n.span).div_ceil(shares.typical as u32)) as usize,
        Level::High => least_deadline(figures, shares),
    };
    let form = Form::Narrow;
    let d = (d + *random.pick(&[0, 0, 0, 0, 1, 3])) as u32;
    if d >= figures.co || figures.co > form.limit() {
        return None;
    }
    figures.d = d;
    match random.within(0..=7) {
        // Fewer chains than the figures allow for.
        0 => masks.iter_mut().for_each(|mask| *mask &= random.word() as u32),
        // Another graph under the same figures.
        1 => masks = any_graph(random, masks.len()),
        _ => {}
    }
    Some(Crafted { task: Task { level, form, figures, masks }, nominal, overload, shares })
}

/// A random graph: its masks, and how many of its first nodes stand beside each other with nothing before them.
fn graph(random: &mut Random, processors: usize) -> (Vec<u32>, usize) {
    match random.within(0..=4) {
        // Nodes side by side, then a chain that has the higher numbers.
        0 | 1 => {
            let fan = random.within(1..=3) * processors;
            let chain = random.within(1..=6);
            let of_chain = (0..chain).map(|step| if step == 0 { 0 } else { 1 << (fan + step - 1) });
            (vec![0; fan].into_iter().chain(of_chain).collect(), fan)
        }
        2 => (vec![0; random.within(2..=NODES)], 0),
        3 => (layers(random), 0),
        _ => {
            let k = random.within(2..=NODES);
            (any_graph(random, k), 0)
        }
    }
}

/// Layers of nodes; each node but the first ones' is preceded by some of the layer before.
fn layers(random: &mut Random) -> Vec<u32> {
    let mut masks: Vec<u32> = Vec::new();
    let mut before = 0;
    for _ in 0..random.within(2..=5) {
        let start = masks.len();
        let width = random.within(1..=6);
        for _ in 0..width {
            let some = before & random.word() as u32;
            masks.push(if some == 0 { before } else { some });
        }
        before = ((1 << width) - 1) << start;
    }
    masks
}

fn any_graph(random: &mut Random, k: usize) -> Vec<u32> {
    let sparse = random.once_in(2);
    let mask = |v: usize| {
        let below = ((1u64 << v) - 1) as u32;
        let some = random.word() as u32 & below;
        some & if sparse { (random.word() & random.word()) as u32 } else { random.word() as u32 }
    };
    (0..k).map(mask).collect()
}

fn nominal_lengths(random: &mut Random, k: usize, fan: usize, scale: usize) -> Vec<u32> {
    let alike = random.within(1..=scale) as u32;
    let even = random.once_in(2);
    let length = |v: usize| if v < fan || even { alike } else { random.within(1..=scale) as u32 };
    (0..k).map(length).collect()
}

/// Lengths of at least the nominal ones.
fn overload_lengths(random: &mut Random, nominal: &[u32], fan: usize, scale: usize) -> Vec<u32> {
    let style = random.within(0..=4);
    let times = random.within(1..=3) as u32;
    let by = random.within(1..=2 * scale) as u32;
    let longer = |(v, &length): (usize, &u32)| match style {
        0 => length + times * length,
        1 => length + by,
        2 if v < fan => length + by,
        3 if v >= fan => length + by,
        2 | 3 => length,
        _ => length + random.within(0..=2 * scale) as u32,
    };
    nominal.iter().enumerate().map(longer).collect()
}

/// A sheet of a high task, whose number is given, and a low one. The high task's overload lengths keep its typical
/// processors busy for V ticks, then its critical ones for some more, and only then let a chain of length LO begin: with
/// shares (a, b) its job ends in tick D and not before. Its times are some units. None where the plan has other shares, or
/// a figure would be too large.
pub fn exact(random: &mut Random, unit: usize) -> Option<(Sheet, Vec<Crafted>, usize)> {
    let high = exact_high(random, unit)?;
    let Pair { typical, critical } = high.shares;
    let processors = critical.max(typical + 2);
    let share = processors - typical;
    let figures = low_figures(random, share);
    let (l, d) = (figures.ln as usize, figures.d as usize);
    let lengths = [vec![d - l; share], vec![l]].concat();
    let low = given(Level::Low, figures, vec![0; share + 1], Pair { typical: share, critical: 0 }, lengths)?;

    let place = random.within(0..=1);
    let mut tasks = if place == 0 { vec![high, low] } else { vec![low, high] };
    in_forms(random, &mut tasks);
    let sheet = sheet(processors, &tasks);
    let plan = planner::plan(&sheet).ok()?;
    (plan.tasks[place].shares == tasks[place].shares).then_some((sheet, tasks, place))
}

fn exact_high(random: &mut Random, unit: usize) -> Option<Crafted> {
    let a = random.within(1..=4);
    let b = random.within(a + 1..=8);
    let (ln, each, then) = (random.within(1..=8 * unit), random.within(0..=8 * unit), random.within(1..=8 * unit));
    let v = ln + each;
    let lo = v.max(then) + random.within(0..=5 * unit);
    let (overload, masks) = then_chain(random, [vec![v; a], vec![then; b]].concat(), lo);
    let [d, cn, co, ln, lo] = [v + then + lo, ln + a * each, a * v + b * then + lo, ln, lo].map(|figure| figure as u32);
    given(Level::High, Figures { d, cn, co, ln, lo }, masks, Pair { typical: a, critical: b }, overload)
}

/// A sheet of a high task as in `exact`, whose number is given first, of one with as many processors in both states, whose
/// number is given second, and of a low one. The second one's job ends in tick D and not before in whichever state it runs,
/// and no high task has a longer deadline. Its times are some units. None where the plan has other shares, or a figure
/// would be too large.
pub fn exact_pair(random: &mut Random, unit: usize) -> Option<(Sheet, Vec<Crafted>, [usize; 2])> {
    let [first, second] = [exact_high(random, unit)?, exact_steady(random, unit)?];
    if first.task.figures.d > second.task.figures.d {
        return None;
    }
    let mut tasks = vec![first, second, exact_low(random, unit)?];
    let turn = random.within(0..=2);
    tasks.rotate_left(turn);
    in_forms(random, &mut tasks);
    let sheet = sheet(needed(&tasks) + *random.pick(&[0, 0, 1, 2]), &tasks);
    let plan = planner::plan(&sheet).ok()?;
    let high = [0, 1].map(|task| (task + 3 - turn) % 3);
    high.iter().all(|&task| plan.tasks[task].shares == tasks[task].shares).then_some((sheet, tasks, high))
}

/// A high task with a share for both states. Its overload lengths keep its processors busy for D − LO ticks, and only then
/// let a chain of length LO begin.
fn exact_steady(random: &mut Random, unit: usize) -> Option<Crafted> {
    let Crafted { task, overload, shares, .. } = exact_low(random, 3 * unit)?;
    let Figures { d, co, lo, .. } = task.figures;
    let ln = random.within(1..=lo as usize) as u32;
    let cn = random.within(ln as usize + 1..=(co - (lo - ln)) as usize) as u32;
    let figures = Figures { d, cn, co, ln, lo };
    let lengths = overload.into_iter().map(|length| length as usize).collect();
    let share = shares.typical;
    given(Level::High, figures, task.masks, Pair { typical: share, critical: share }, lengths)
}

/// A sheet of a high task, whose number is given, and of low ones of which one at least is kept. Each low task's lengths
/// keep its processors busy for D − L ticks, and only then let a chain of length L begin: its job ends in tick D and not
/// before. Its times are some units. None where no low task is kept, or a figure would be too large.
pub fn exact_kept(random: &mut Random, unit: usize) -> Option<(Sheet, Vec<Crafted>, usize)> {
    let count = random.within(1..=4);
    let mut tasks = (0..count).map(|_| exact_low(random, unit)).collect::<Option<Vec<Crafted>>>()?;
    let high = random.within(0..=tasks.len());
    tasks.insert(high, crafted_task(random, Level::High, 8, 6));
    in_forms(random, &mut tasks);
    let sheet = sheet(needed(&tasks) + *random.pick(&[0, 0, 0, 1]), &tasks);
    let plan = planner::plan(&sheet).ok()?;
    let keeps_one = (0..tasks.len()).any(|task| task != high && plan.tasks[task].shares.critical > 0);
    keeps_one.then_some((sheet, tasks, high))
}

fn exact_low(random: &mut Random, unit: usize) -> Option<Crafted> {
    let (share, rounds, each) = (random.within(2..=4), random.within(1..=3), random.within(1..=4 * unit));
    let l = each + random.within(0..=4 * unit);
    let (lengths, masks) = then_chain(random, vec![each; share * rounds], l);
    let [d, c, l] = [l + rounds * each, l + share * rounds * each, l].map(|figure| figure as u32);
    let figures = Figures { d, cn: c, co: c, ln: l, lo: l };
    given(Level::Low, figures, masks, Pair { typical: share, critical: 0 }, lengths)
}

/// Nodes of some lengths side by side, and with higher numbers a chain of at most four that total the span: the lengths,
/// and the masks.
fn then_chain(random: &mut Random, beside: Vec<usize>, span: usize) -> (Vec<usize>, Vec<u32>) {
    let steps = random.within(1..=4.min(span));
    let of_chain = (0..steps).map(|step| span / steps + usize::from(step < span % steps));
    let in_chain = |v: usize| if v > beside.len() { 1 << (v - 1) } else { 0 };
    let masks = (0..beside.len() + steps).map(in_chain).collect();
    (beside.into_iter().chain(of_chain).collect(), masks)
}

/// A task whose nodes have these lengths, nominal and overload, where some form holds its figures.
fn given(level: Level, figures: Figures, masks: Vec<u32>, shares: Pair, lengths: Vec<usize>) -> Option<Crafted> {
    let lengths: Vec<u32> = lengths.into_iter().map(|length| length as u32).collect();
    let task = Task { level, form: Form::Wide, figures, masks };
    (figures.co <= Form::Wide.limit()).then_some(Crafted::of(task, lengths.clone(), lengths, shares))
}
