//! A planner by S4, S5, S6 and refusals 7 to 9 of the specification.
//! It holds whole choices, one for each pair of totals that the tasks so far can reach, and looks at every set of low
//! tasks to find the one that is kept. It shares nothing with the proved planner: neither code nor method. `least_total`
//! alone goes by totals, with no cap.
use crate::reference::answers::{Cause, Refusal, Reply};
use crate::reference::reader::{self, Figures, Level, Sheet, Task};
use std::cmp::Reverse;

/// A task's share in each state.
#[derive(Clone, Copy, Debug, PartialEq, Eq, PartialOrd, Ord)]
pub struct Pair {
    pub typical: usize,
    pub critical: usize,
}

/// What the plan gives a task.
#[derive(Clone, Copy, Debug, PartialEq, Eq)]
pub struct Planned {
    pub shares: Pair,
    /// V.
    pub virtual_deadline: u32,
    /// What is left of CN − LN where V is rounded down.
    pub remainder: u8,
}

/// A plan, a task after the other.
#[derive(Clone, Debug, PartialEq, Eq)]
pub struct Plan {
    pub tasks: Vec<Planned>,
    /// The fitting choices whose totals are those of the chosen one, it counted.
    pub ties: u64,
    /// The processors that the high tasks leave over in the critical state.
    pub left: usize,
}

/// The bytes of a plan, for each task.
pub const TASK_BYTES: usize = 9;
/// The bytes that the printer takes as the sheet.
pub const PRINTER_INPUT: usize = 4_096;

/// Plans what was read: refusal 7 over the tasks, then 8. A kept task's critical share is its typical one.
pub fn plan(sheet: &Sheet) -> Result<Plan, Refusal> {
    let mut choice = chosen(sheet)?;
    let left = usize::from(sheet.processors) - choice.critical;
    for task in kept(&low_shares(sheet, &choice), left) {
        choice.pairs[task].critical = choice.pairs[task].typical;
    }
    let planned = |(task, &shares): (&Task, &Pair)| {
        let (virtual_deadline, remainder) = rounded(task, shares.typical);
        Planned { shares, virtual_deadline, remainder }
    };
    let tasks = sheet.tasks.iter().zip(&choice.pairs).map(planned).collect();
    Ok(Plan { tasks, ties: choice.ways, left })
}

/// The choice that comes first of all that fit. Its critical total is that of the high tasks: a low one's pair has 0.
fn chosen(sheet: &Sheet) -> Result<Choice, Refusal> {
    let most = usize::from(sheet.processors);
    let options: Vec<Vec<Pair>> = sheet.tasks.iter().map(|task| options(task, most)).collect();
    if let Some(task) = options.iter().position(Vec::is_empty) {
        return Err(Refusal::of(Cause::NoShare, task));
    }
    // The choices stand in the order of their pairs: of two with the same totals the first would be taken.
    let first = fitting(&options, most).into_iter().min_by_key(|choice| (choice.critical, choice.typical));
    first.ok_or(Refusal::whole(Cause::NoFit))
}

/// A low task, by its number, and its typical share.
#[derive(Clone, Copy, Debug)]
struct LowShare {
    task: usize,
    share: usize,
}

fn low_shares(sheet: &Sheet, choice: &Choice) -> Vec<LowShare> {
    let of_task = |(task, pair): (usize, &Pair)| LowShare { task, share: pair.typical };
    let is_low = |low: &LowShare| sheet.tasks[low.task].level == Level::Low;
    choice.pairs.iter().enumerate().map(of_task).filter(is_low).collect()
}

/// The kept tasks, in the order of their numbers: of all sets of low tasks whose shares total at most what is left over,
/// the one with the most tasks, then the one with the fewest processors, then the one whose list of numbers comes first.
fn kept(low: &[LowShare], left: usize) -> Vec<usize> {
    // Bit i of a set says that the i-th low task is in it.
    let members = |set: usize| low.iter().enumerate().filter(move |(i, _)| set >> i & 1 == 1).map(|(_, low)| low.task);
    let totals = totals(low);
    let order = |set: &usize| (Reverse(set.count_ones()), totals[*set]);
    let fitting = (0..totals.len()).filter(|&set| totals[set] <= left);
    let first =
        fitting.min_by(|one, other| order(one).cmp(&order(other)).then_with(|| members(*one).cmp(members(*other))));
    members(first.unwrap_or(0)).collect()
}

/// The processors of each set of low tasks. Each task doubles the sets: first those without it, then the same with it.
fn totals(low: &[LowShare]) -> Vec<usize> {
    let mut totals = vec![0];
    for low in low {
        totals.extend_from_within(..);
        let half = totals.len() / 2;
        totals[half..].iter_mut().for_each(|total| *total += low.share);
    }
    totals
}

/// Whether a sheet is planned.
pub fn is_planned(sheet: &Sheet) -> bool {
    chosen(sheet).is_ok()
}

/// Reads and plans a sheet.
pub fn read_and_plan(sheet: &[u8]) -> Result<(Sheet, Plan), Refusal> {
    let sheet = reader::read(sheet)?;
    let plan = plan(&sheet)?;
    Ok((sheet, plan))
}

/// The call Plan: its answer, and the buffer after it.
pub fn plan_into(sheet: &[u8], buffer: &[u8]) -> (Reply, Vec<u8>) {
    let bytes = read_and_plan(sheet).map(|(_, plan)| plan.bytes()).and_then(|bytes| {
        let fits = bytes.len() <= buffer.len();
        fits.then_some(bytes).ok_or(Refusal::whole(Cause::PlanBuffer))
    });
    match bytes {
        Ok(bytes) => (Reply::Done, [&bytes, &buffer[bytes.len()..]].concat()),
        Err(refusal) => (refusal.into(), buffer.to_vec()),
    }
}

/// What the printer writes when it is given these bytes.
pub fn printed(input: &[u8]) -> String {
    let sheet = &input[..input.len().min(PRINTER_INPUT)];
    match read_and_plan(sheet) {
        Ok((_, plan)) => plan.lines(),
        Err(refusal) => {
            let (number, task) = refusal.answer();
            format!("refused {number} {task}\n")
        }
    }
}

impl Plan {
    /// The 9n bytes: n typical pairs (offset, length), n critical pairs, n V of four bytes, n remainders.
    pub fn bytes(&self) -> Vec<u8> {
        let block = |(offset, length): (usize, usize)| [offset as u8, length as u8];
        let typical = self.typical_blocks().into_iter().flat_map(block);
        let critical = self.critical_blocks().into_iter().flat_map(block);
        let deadlines = self.tasks.iter().flat_map(|task| task.virtual_deadline.to_le_bytes());
        let remainders = self.tasks.iter().map(|task| task.remainder);
        typical.chain(critical).chain(deadlines).chain(remainders).collect()
    }

    fn lines(&self) -> String {
        let blocks = self.typical_blocks().into_iter().zip(self.critical_blocks());
        let line = |(i, (task, (typical, critical))): (usize, (&Planned, _))| {
            let ((t, typical), (c, critical)): ((usize, usize), (usize, usize)) = (typical, critical);
            format!("{i} {t} {typical} {c} {critical} {} {}\n", task.virtual_deadline, task.remainder)
        };
        self.tasks.iter().zip(blocks).enumerate().map(line).collect()
    }

    pub fn typical_blocks(&self) -> Vec<(usize, usize)> {
        blocks(self.tasks.iter().map(|task| task.shares.typical))
    }

    pub fn critical_blocks(&self) -> Vec<(usize, usize)> {
        blocks(self.tasks.iter().map(|task| task.shares.critical))
    }
}

/// Offset and length of each block: a block starts at the sum of the shares before it.
fn blocks(shares: impl Iterator<Item = usize>) -> Vec<(usize, usize)> {
    let mut sum = 0;
    let place = |share| {
        sum += share;
        (sum - share, share)
    };
    shares.map(place).collect()
}

/// All pairs that a task may get, smaller a first, then smaller b.
pub fn options(task: &Task, most: usize) -> Vec<Pair> {
    match task.level {
        Level::Low => low_share(task.figures)
            .filter(|&share| share <= most)
            .map(|typical| Pair { typical, critical: 0 })
            .into_iter()
            .collect(),
        Level::High => (1..=most)
            .flat_map(|typical| (typical..=most).map(move |critical| Pair { typical, critical }))
            .filter(|&pair| passes(task.figures, pair))
            .collect(),
    }
}

/// A low task's share: (CN − LN) / (D − LN) rounded up, none where LN ≥ D.
fn low_share(figures: Figures) -> Option<usize> {
    let [d, cn, ln] = [figures.d, figures.cn, figures.ln].map(|figure| figure as usize);
    (ln < d).then(|| (cn - ln).div_ceil(d - ln))
}

/// D·a·b ≥ (CN − LN)·b + w·a + LO·a·b + min(LN·a, w)·(b − a), with w = (CO − CN) − (LO − LN).
pub fn passes(figures: Figures, Pair { typical, critical }: Pair) -> bool {
    let (a, b) = (typical as i64, critical as i64);
    i64::from(figures.d) * a * b >= needed(figures, a, b)
}

fn needed(figures: Figures, a: i64, b: i64) -> i64 {
    let [cn, co, ln, lo] = [figures.cn, figures.co, figures.ln, figures.lo].map(i64::from);
    let w = (co - cn) - (lo - ln);
    (cn - ln) * b + w * a + lo * a * b + (ln * a).min(w) * (b - a)
}

/// The least D with which a pair passes, the other figures as they stand.
pub fn least_deadline(figures: Figures, Pair { typical, critical }: Pair) -> usize {
    let (a, b) = (typical as i64, critical as i64);
    let needed = needed(figures, a, b);
    ((needed + a * b - 1) / (a * b)) as usize
}

/// V and the remainder: LN, and a tick for each time that a can be taken off CN − LN, by so many times at once as a
/// power of two says; then less than a is left. A low task has 0 and 0.
fn rounded(task: &Task, typical: usize) -> (u32, u8) {
    if task.level == Level::Low {
        return (0, 0);
    }
    let Figures { cn, ln, .. } = task.figures;
    let (mut ticks, mut left) = (ln as usize, (cn - ln) as usize);
    for times in (0..20).rev().map(|power| 1 << power) {
        while left >= times * typical {
            ticks += times;
            left -= times * typical;
        }
    }
    (ticks as u32, left as u8)
}

/// The least critical total of all choices whose typical total is at most M, however large it is; none where no choice has
/// such a typical total. A critical share may be any up to `widest`, however many processors there are.
pub fn least_total(sheet: &Sheet, widest: usize) -> Option<usize> {
    let most = usize::from(sheet.processors);
    // The least critical total of the tasks so far at each typical total.
    let mut totals = vec![None; most + 1];
    totals[0] = Some(0);
    for task in &sheet.tasks {
        let mut longer: Vec<Option<usize>> = vec![None; most + 1];
        for Pair { typical, critical } in options(task, widest) {
            for (t, total) in totals.iter().enumerate().filter(|(t, _)| t + typical <= most) {
                let Some(total) = total else { continue };
                let least = &mut longer[t + typical];
                *least = Some(least.map_or(total + critical, |least| least.min(total + critical)));
            }
        }
        totals = longer;
    }
    totals.into_iter().flatten().min()
}

/// A choice for the first tasks: of all with these totals, the one whose list of pairs comes first.
struct Choice {
    typical: usize,
    critical: usize,
    pairs: Vec<Pair>,
    ways: u64,
}

/// One choice for each pair of totals of at most M, in the order of their lists of pairs. The choices of the tasks so
/// far are tried in their order and each with the next pairs in theirs, so the first to reach two totals comes first.
/// Totals that leave too little for the least shares of the later tasks are left out.
fn fitting(options: &[Vec<Pair>], most: usize) -> Vec<Choice> {
    let least = |options: &[Vec<Pair>], share: fn(&Pair) -> usize| -> usize {
        options.iter().map(|options| options.iter().map(share).min().unwrap_or(0)).sum()
    };
    let mut choices = vec![Choice { typical: 0, critical: 0, pairs: Vec::new(), ways: 1 }];
    for (task, pairs) in options.iter().enumerate() {
        let later = &options[task + 1..];
        let room_typical = most.saturating_sub(least(later, |pair| pair.typical));
        let room_critical = most.saturating_sub(least(later, |pair| pair.critical));
        let mut reached = vec![None; (most + 1) * (most + 1)];
        let mut longer: Vec<Choice> = Vec::new();
        for choice in &choices {
            let rows = pairs.chunk_by(|one, next| one.typical == next.typical);
            let rows = rows.take_while(|row| choice.typical + row[0].typical <= room_typical);
            let fits = |pair: &&Pair| choice.critical + pair.critical <= room_critical;
            for &pair in rows.flat_map(|row| row.iter().take_while(fits)) {
                let (typical, critical) = (choice.typical + pair.typical, choice.critical + pair.critical);
                match &mut reached[typical * (most + 1) + critical] {
                    Some(place) => {
                        let other: &mut Choice = &mut longer[*place];
                        other.ways = other.ways.saturating_add(choice.ways);
                    }
                    none => {
                        *none = Some(longer.len());
                        let pairs = choice.pairs.iter().copied().chain([pair]).collect();
                        longer.push(Choice { typical, critical, pairs, ways: choice.ways });
                    }
                }
            }
        }
        choices = longer;
    }
    choices
}

#[cfg(test)]
mod tests {
    use super::*;
    use crate::makers::random::Random;
    use crate::makers::sheets::{Draft, CASE_14};
    use crate::makers::tight;
    use crate::reference::reader::Form;

    const A: Figures = Figures { d: 45, cn: 9, co: 52, ln: 4, lo: 20 };
    const B: Figures = Figures { d: 54, cn: 11, co: 80, ln: 4, lo: 42 };
    const E: Figures = Figures { d: 18, cn: 66, co: 66, ln: 6, lo: 6 };

    fn high(figures: Figures) -> Task {
        Task { level: Level::High, form: Form::Narrow, figures, masks: vec![0] }
    }

    fn low(figures: Figures) -> Task {
        Task { level: Level::Low, form: Form::Narrow, figures, masks: vec![0] }
    }

    fn planned(processors: u8, tasks: &[Task]) -> Result<Vec<u8>, Refusal> {
        plan(&Sheet { processors, tasks: tasks.to_vec() }).map(|plan| plan.bytes())
    }

    /// The least fitting choice among all there are, one by one.
    fn naive(sheet: &Sheet) -> Option<(Vec<Pair>, u64)> {
        let most = usize::from(sheet.processors);
        let mut all: Vec<Vec<Pair>> = vec![vec![]];
        for task in &sheet.tasks {
            let options = options(task, most);
            all = all.iter().flat_map(|list| options.iter().map(|&pair| [&list[..], &[pair]].concat())).collect();
        }
        let totals = |list: &[Pair]| {
            let typical: usize = list.iter().map(|pair| pair.typical).sum();
            let critical: usize = list.iter().map(|pair| pair.critical).sum();
            (critical, typical)
        };
        all.retain(|list| totals(list).0 <= most && totals(list).1 <= most);
        let least = all.iter().min_by_key(|list| (totals(list), list.to_vec()))?.clone();
        let ties = all.iter().filter(|list| totals(list) == totals(&least)).count();
        Some((least, ties as u64))
    }

    #[test]
    fn cases_1_to_10() {
        let case = |figures: Figures, typical, critical| {
            let ab = (typical * critical) as i64;
            let pair = Pair { typical, critical };
            (i64::from(figures.d) * ab, needed(figures, typical as i64, critical as i64), passes(figures, pair))
        };
        assert_eq!(case(A, 1, 1), (45, 52, false));
        assert_eq!(case(A, 1, 2), (90, 81, true));
        assert_eq!([1, 2, 6].map(|a| rounded(&high(A), a)), [(9, 0), (6, 1), (4, 5)]);
        assert_eq!(case(B, 2, 5), (540, 541, false));
        assert_eq!(case(B, 2, 6), (648, 640, true));
        assert_eq!(case(B, 3, 3), (486, 492, false));
        assert_eq!(case(B, 3, 4), (648, 637, true));
        assert_eq!([2, 3, 7].map(|a| rounded(&high(B), a)), [(7, 1), (6, 1), (5, 0)]);
        assert_eq!(rounded(&low(E), 7), (0, 0));
        assert_eq!(case(B, 1, 26), (1404, 1405, false));
        assert_eq!(case(B, 1, 27), (1458, 1458, true));
        let share = |c| low_share(Figures { d: 18, cn: c, co: c, ln: 6, lo: 6 });
        assert_eq!([30, 31, 66].map(share), [Some(2), Some(3), Some(5)]);
    }

    #[test]
    fn v_of_wide_tasks() {
        let figures = Figures { d: 400_000, cn: 700_009, co: 900_000, ln: 50_000, lo: 100_000 };
        let task = Task { form: Form::Wide, ..high(figures) };
        assert_eq!(
            [1, 10, 13, 64].map(|a| rounded(&task, a)),
            [(700_009, 0), (115_000, 9), (100_000, 9), (60_156, 25)]
        );
        let of_two = Figures { d: 100_000, cn: 133_948, co: 133_948, ln: 66_051, lo: 66_051 };
        let bytes = planned(2, &[Task { form: Form::Wide, ..high(of_two) }]);
        assert_eq!(bytes, Ok(vec![0, 2, 0, 2, 0x9f, 0x86, 1, 0, 1]), "V is 99,999");
    }

    #[test]
    fn case_11() {
        let tasks = [high(A), high(B)];
        let bytes = vec![0, 1, 1, 3, 0, 2, 2, 4, 9, 0, 0, 0, 6, 0, 0, 0, 0, 1];
        assert_eq!(planned(8, &tasks), Ok(bytes.clone()));
        assert_eq!(planned(6, &tasks), Ok(bytes));
        assert_eq!(planned(5, &tasks), Err(Refusal::whole(Cause::NoFit)));
        assert_eq!(planned(3, &tasks), Err(Refusal::of(Cause::NoShare, 1)));
    }

    #[test]
    fn case_12() {
        assert_eq!(planned(7, &[high(A), high(B), low(E)]), Err(Refusal::whole(Cause::NoFit)));
    }

    #[test]
    fn case_14() {
        assert_eq!(printed(&CASE_14), "0 0 1 0 2 9 0\n1 1 2 2 6 7 1\n2 3 5 8 0 0 0\n");
        assert_eq!(printed(&CASE_14[..61]), "refused 2 2\n");
        assert_eq!(printed(&[]), "refused 1 255\n");
    }

    #[test]
    fn the_buffer_keeps_its_later_bytes_and_all_where_refused() {
        let plan = [0, 1, 1, 2, 3, 5, 0, 2, 2, 6, 8, 0, 9, 0, 0, 0, 7, 0, 0, 0, 0, 0, 0, 0, 0, 1, 0];
        assert_eq!(plan_into(&CASE_14, &[7; 29]), (Reply::Done, [&plan[..], &[7, 7]].concat()));
        assert_eq!(plan_into(&CASE_14, &[7; 27]), (Reply::Done, plan.to_vec()));
        assert_eq!(plan_into(&CASE_14, &[7; 26]), (Reply::Refused(9, 255), vec![7; 26]));
        assert_eq!(plan_into(&CASE_14[..61], &[7; 26]), (Reply::Refused(2, 2), vec![7; 26]));
    }

    #[test]
    fn a_low_task_needs_room_for_its_span() {
        let with = |d, l| low(Figures { d, cn: 66, co: 66, ln: l, lo: l });
        assert_eq!(planned(64, &[with(18, 17)]), Ok(vec![0, 49, 0, 49, 0, 0, 0, 0, 0]));
        for task in [with(18, 18), with(18, 19)] {
            assert_eq!(planned(64, &[high(A), task]), Err(Refusal::of(Cause::NoShare, 1)));
        }
        assert_eq!(planned(49, &[with(18, 17)]), Ok(vec![0, 49, 0, 49, 0, 0, 0, 0, 0]));
        assert_eq!(planned(48, &[with(18, 17)]), Err(Refusal::of(Cause::NoShare, 0)));
    }

    #[test]
    fn the_least_total_is_the_least_of_all() {
        let mut random = Random::of_test("the least total");
        for _ in 0..200 {
            let count = random.within(1..=3);
            let processors = random.within(1..=6);
            let sheet = Sheet { processors: processors as u8, ..tight::sheet(&mut random, count) };
            let widest = processors + random.within(0..=4);
            let mut totals = vec![(0, 0)];
            for task in &sheet.tasks {
                let pairs = options(task, widest);
                totals = totals
                    .iter()
                    .flat_map(|(t, c)| pairs.iter().map(move |pair| (t + pair.typical, c + pair.critical)))
                    .collect();
            }
            let within = totals.iter().filter(|(typical, _)| *typical <= processors);
            assert_eq!(least_total(&sheet, widest), within.map(|(_, critical)| *critical).min(), "{sheet:?}, {widest}");
        }
    }

    #[test]
    fn the_choice_is_the_least_of_all() {
        let mut random = Random::of_test("naive planner");
        let (mut chosen, mut tied, mut unfit) = (0, 0, 0);
        for round in 0..6_000 {
            let sheet = if round % 3 == 0 {
                tight::tied(&mut random)
            } else {
                let count = random.within(1..=4);
                let most = [0, 24, 12, 7, 5][count];
                let tasks = tight::sheet(&mut random, count).tasks;
                Sheet { processors: random.within(1..=most) as u8, tasks }
            };
            let most = usize::from(sheet.processors);
            if sheet.tasks.iter().map(|task| options(task, most).len()).product::<usize>() > 20_000 {
                continue;
            }
            let naive = naive(&sheet);
            match super::chosen(&sheet) {
                Ok(choice) => {
                    assert_eq!(naive, Some((choice.pairs, choice.ways)), "{sheet:?}");
                    chosen += 1;
                    tied += (choice.ways > 1) as usize;
                }
                Err(refusal) => {
                    assert_eq!(naive, None, "{sheet:?}");
                    unfit += (refusal.cause == Cause::NoFit) as usize;
                }
            }
        }
        println!("naive planner: {chosen} chosen, {tied} of them among ties, {unfit} without a fitting choice");
        assert!(chosen >= 1_000 && tied >= 200 && unfit >= 500);
    }

    fn kept_of(shares: &[usize], left: usize) -> Vec<usize> {
        let low: Vec<LowShare> = shares.iter().enumerate().map(|(task, &share)| LowShare { task, share }).collect();
        kept(&low, left)
    }

    #[test]
    fn the_kept_set_has_most_tasks_then_fewest_processors_then_the_first_numbers() {
        assert_eq!(kept_of(&[], 5), []);
        assert_eq!(kept_of(&[3, 2], 1), []);
        assert_eq!(kept_of(&[5, 2, 3], 5), [1, 2], "two tasks come before one");
        assert_eq!(kept_of(&[4, 3, 2], 4), [2], "two processors come before four");
        assert_eq!(kept_of(&[2, 2, 2], 5), [0, 1], "0 1 comes before 0 2");
        assert_eq!(kept_of(&[3, 2, 3, 2, 3], 7), [0, 1, 3]);
        assert_eq!(kept_of(&[3, 2, 3, 2, 3], 10), [0, 1, 2, 3]);
        assert_eq!(kept_of(&[4, 2, 3], 9), [0, 1, 2]);
        assert_eq!(kept_of(&[2; 16], 15), [0, 1, 2, 3, 4, 5, 6]);
    }

    #[test]
    fn a_kept_task_has_its_typical_share_in_both_states() {
        let f = low(Figures { cn: 30, co: 30, ..E });
        let (a, e) = (high(A), low(E));
        let two = [a.clone(), e.clone()];
        let of_two = |e: u8| [&[0, 1, 1, 5, 0, 2, 2, e, 9][..], &[0; 9]].concat();
        assert_eq!(planned(8, &two), Ok(of_two(5)), "6 are left over");
        assert_eq!(planned(7, &two), Ok(of_two(5)), "just 5");
        assert_eq!(planned(6, &two), Ok(of_two(0)), "4");
        let three = [&[0, 5, 5, 1, 6, 2, 0, 0, 0, 2, 2, 2, 0, 0, 0, 0, 9][..], &[0; 10]].concat();
        assert_eq!(planned(8, &[e, a, f]), Ok(three), "of 5 and 2 processors the 2");
    }

    #[test]
    fn the_kept_tasks_are_the_cheapest() {
        let mut random = Random::of_test("kept sets");
        for _ in 0..3_000 {
            let widest = random.within(2..=8);
            let shares: Vec<usize> = (0..random.within(0..=10)).map(|_| random.within(2..=widest)).collect();
            let left = random.within(0..=1 + shares.iter().sum::<usize>());
            let mut in_turn: Vec<usize> = (0..shares.len()).collect();
            in_turn.sort_by_key(|&task| shares[task]);
            let total = |count: usize| in_turn[..count].iter().map(|&task| shares[task]).sum::<usize>();
            let count = (0..=shares.len()).rev().find(|&count| total(count) <= left).unwrap_or(0);
            let mut cheapest = in_turn[..count].to_vec();
            cheapest.sort();
            assert_eq!(kept_of(&shares, left), cheapest, "{shares:?}, {left} left over");
        }
    }

    #[test]
    fn the_least_deadline_is_the_least() {
        let mut random = Random::of_test("least deadline");
        for _ in 0..5_000 {
            let task = tight::task(&mut random, 12, &[Form::Narrow, Form::Wide]);
            let pair = Pair { typical: random.within(1..=8), critical: random.within(8..=12) };
            let least = least_deadline(task.figures, pair);
            let with = |d| passes(Figures { d, ..task.figures }, pair);
            assert!(with(least as u32) && !with(least as u32 - 1));
        }
    }

    #[test]
    fn a_drafted_sheet_is_planned_as_its_tasks_are() {
        let mut random = Random::of_test("drafted plans");
        for _ in 0..100 {
            let count = random.within(1..=16);
            let mut sheet = tight::sheet(&mut random, count);
            sheet.processors = random.within(1..=64) as u8;
            let bytes = Draft::of(&sheet).bytes();
            assert_eq!(read_and_plan(&bytes), plan(&sheet).map(|plan| (sheet, plan)));
        }
    }
}
