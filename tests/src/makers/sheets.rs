//! Makers of sheets: random valid ones, and bytes that look more or less like a sheet.
use crate::makers::random::Random;
use crate::reference::reader::{level_byte, numbers, of_level_byte, Figures, Form, Level, Sheet, Task, NODES, TASKS};

/// The most processors.
pub const PROCESSORS: usize = 64;

/// The sheet of case 14 (S11.14): A, B, E, M 8.
#[rustfmt::skip]
pub const CASE_14: [u8; 62] = [
    8, 3, 14, 0, 16, 0, 30, 0, 16, 0, 46, 0, 16, 0,
    1, 1, 45, 0, 9, 0, 52, 0, 4, 0, 20, 0, 0, 0, 0, 0,
    1, 1, 54, 0, 11, 0, 80, 0, 4, 0, 42, 0, 0, 0, 0, 0,
    0, 1, 18, 0, 66, 0, 66, 0, 6, 0, 6, 0, 0, 0, 0, 0,
];

/// A sheet before its directory is written: M, and each task's record, right or wrong.
#[derive(Clone, Debug)]
pub struct Draft {
    pub processors: u8,
    pub records: Vec<Vec<u8>>,
}

impl Draft {
    pub fn of(sheet: &Sheet) -> Draft {
        Draft { processors: sheet.processors, records: sheet.tasks.iter().map(record).collect() }
    }

    /// The draft of a sheet that has its records in place.
    pub fn cut(sheet: &[u8]) -> Draft {
        let (directory, mut rest) = sheet[2..].split_at(4 * usize::from(sheet[1]));
        let lengths = numbers(directory, 2).skip(1).step_by(2);
        let next = |length: u32| {
            let (record, behind) = rest.split_at(length as usize);
            rest = behind;
            record.to_vec()
        };
        Draft { processors: sheet[0], records: lengths.map(next).collect() }
    }

    /// Where each record starts, and at last where the sheet ends.
    pub fn places(&self) -> Vec<usize> {
        let first = 2 + 4 * self.records.len();
        let ends = self.records.iter().scan(first, |end, record| {
            *end += record.len();
            Some(*end)
        });
        std::iter::once(first).chain(ends).collect()
    }

    /// The sheet, with a directory that has every record in place.
    pub fn bytes(&self) -> Vec<u8> {
        let directory =
            self.places().into_iter().zip(&self.records).flat_map(|(place, record)| pair(place, record.len()));
        [self.processors, self.records.len() as u8]
            .into_iter()
            .chain(directory)
            .chain(self.records.iter().flatten().copied())
            .collect()
    }

    /// The sheet with one record replaced.
    pub fn with_record(&self, task: usize, record: Vec<u8>) -> Draft {
        let mut draft = self.clone();
        draft.records[task] = record;
        draft
    }

    /// The draft's wide twin: its narrow records in the wide form, and those in it as they are. Levels are lawful and no
    /// record is shorter than what stands before the masks.
    pub fn wide_twin(&self) -> Draft {
        Draft { processors: self.processors, records: self.records.iter().map(|record| widened(record)).collect() }
    }
}

/// The form of a record whose level is lawful.
pub fn form_of(record: &[u8]) -> Form {
    of_level_byte(record[0]).expect("a lawful level").1
}

/// A record in the wide form: each figure gets two bytes of 0 more.
fn widened(record: &[u8]) -> Vec<u8> {
    if form_of(record) == Form::Wide {
        return record.to_vec();
    }
    let (head, masks) = record.split_at(Form::Narrow.head());
    let figures = head[2..].chunks_exact(Form::Narrow.width()).flat_map(|figure| [figure, &[0, 0]].concat());
    [head[0] + 16, head[1]].into_iter().chain(figures).chain(masks.iter().copied()).collect()
}

/// The bytes of a figure in a form; what its bytes can't hold is cut off.
pub fn figure_bytes(form: Form, figure: usize) -> Vec<u8> {
    figure.to_le_bytes()[..form.width()].to_vec()
}

/// The forms that the records of a random sheet may have: every second time narrow alone, else wide alone or both.
pub fn forms(random: &mut Random) -> &'static [Form] {
    const NARROW: &[Form] = &[Form::Narrow];
    *random.pick(&[NARROW, NARROW, &[Form::Wide], &[Form::Narrow, Form::Wide]])
}

/// The bytes of a directory's pair, each number modulo 65,536.
pub fn pair(offset: usize, length: usize) -> [u8; 4] {
    let ([a, b], [c, d]) = ((offset as u16).to_le_bytes(), (length as u16).to_le_bytes());
    [a, b, c, d]
}

/// The record of a task.
pub fn record(task: &Task) -> Vec<u8> {
    let Figures { d, cn, co, ln, lo } = task.figures;
    [level_byte(task.level, task.form), task.masks.len() as u8]
        .into_iter()
        .chain([d, cn, co, ln, lo].into_iter().flat_map(|figure| figure_bytes(task.form, figure as usize)))
        .chain(task.masks.iter().flat_map(|mask| mask.to_le_bytes()))
        .collect()
}

/// A random valid sheet; the ends of each range are likely.
pub fn valid(random: &mut Random) -> Sheet {
    let processors = random.skewed(1..=PROCESSORS) as u8;
    let (count, forms) = (random.skewed(1..=TASKS), forms(random));
    Sheet { processors, tasks: (0..count).map(|_| valid_task(random, forms)).collect() }
}

/// A random valid sheet of so many tasks, with few nodes each.
pub fn small(random: &mut Random, count: usize) -> Sheet {
    let mut sheet = Sheet { processors: random.within(1..=PROCESSORS) as u8, tasks: Vec::new() };
    let forms = forms(random);
    for _ in 0..count {
        let mut task = valid_task(random, forms);
        task.masks.truncate(random.within(1..=4));
        sheet.tasks.push(task);
    }
    sheet
}

fn valid_task(random: &mut Random, forms: &[Form]) -> Task {
    let level = *random.pick(&[Level::Low, Level::High, Level::High]);
    let form = *random.pick(forms);
    let figures = valid_figures(random, level, form.limit() as usize);
    let nodes = random.skewed(1..=NODES);
    let masks = (0..nodes).map(|v| {
        let below = (1 << v) - 1;
        let some = random.word() as u32 & below;
        *random.pick(&[0, below, some])
    });
    Task { level, form, figures, masks: masks.collect() }
}

/// Figures up to a limit that keep every rule of a level. `LO ≤ CO` follows from `LN ≤ CN` and `CO − CN ≥ LO − LN`.
fn valid_figures(random: &mut Random, level: Level, limit: usize) -> Figures {
    let co = random.skewed(2..=limit);
    let d = random.skewed(1..=co - 1);
    let cn = if level == Level::High { random.skewed(1..=co) } else { co };
    let ln = random.skewed(1..=cn);
    let lo = ln + random.skewed(0..=co - cn);
    let [d, cn, co, ln, lo] = [d, cn, co, ln, lo].map(|figure| figure as u32);
    Figures { d, cn, co, ln, lo }
}

/// Bytes with a header and a directory that mostly hold, and records that are random but near the rules.
pub fn plausible(random: &mut Random) -> Vec<u8> {
    let processors = if random.once_in(40) { random.word() as u8 } else { random.within(1..=PROCESSORS) as u8 };
    let (count, forms) = (random.skewed(1..=TASKS), forms(random));
    let draft = Draft { processors, records: (0..count).map(|_| plausible_record(random, forms)).collect() };
    let mut sheet = draft.bytes();
    if random.once_in(10) {
        let at = random.within(1..=1 + 4 * count);
        sheet[at] = random.word() as u8;
    }
    sheet
}

fn plausible_record(random: &mut Random, forms: &[Form]) -> Vec<u8> {
    let task = valid_task(random, forms);
    let (mut record, form) = (record(&task), task.form);
    let few = random.within(3..=12);
    let limit = form.limit() as usize;
    for figure in record[2..form.head()].chunks_exact_mut(form.width()) {
        let value = match random.within(0..=9) {
            0 => random.within(0..=few),
            1 => random.within(limit - few..=limit + few),
            _ => continue,
        };
        figure.copy_from_slice(&figure_bytes(form, value));
    }
    if random.once_in(6) {
        let at = random.within(form.head()..=record.len() - 1);
        record[at] |= 1 << random.within(0..=7);
    }
    if random.once_in(10) {
        let at = random.within(0..=1);
        record[at] = random.skewed(0..=34) as u8;
    }
    if random.once_in(20) {
        record.truncate(random.within(0..=record.len()));
    }
    record
}

#[cfg(test)]
mod tests {
    use super::*;
    use crate::reference::reader::read;

    #[test]
    fn the_reader_gives_back_what_was_drafted() {
        let mut random = Random::of_test("drafts");
        for _ in 0..2_000 {
            let sheet = valid(&mut random);
            let bytes = Draft::of(&sheet).bytes();
            assert_eq!(Draft::cut(&bytes).bytes(), bytes);
            assert_eq!(read(&bytes), Ok(sheet));
        }
    }

    #[test]
    fn case_14_is_laid_out_again() {
        assert_eq!(Draft::of(&read(&CASE_14).unwrap()).bytes(), CASE_14);
    }

    #[test]
    fn the_makers_reach_the_limits() {
        let mut random = Random::of_test("limits");
        let sheets: Vec<Sheet> = (0..2_000).map(|_| valid(&mut random)).collect();
        let tasks = || sheets.iter().flat_map(|sheet| &sheet.tasks);
        let often = |count: usize| assert!(count >= 50, "{count}");
        for end in [1, PROCESSORS] {
            often(sheets.iter().filter(|sheet| usize::from(sheet.processors) == end).count());
        }
        for end in [1, TASKS] {
            often(sheets.iter().filter(|sheet| sheet.tasks.len() == end).count());
        }
        for end in [1, NODES] {
            often(tasks().filter(|task| task.masks.len() == end).count());
        }
        let kinds = [Level::Low, Level::High].map(|level| [(level, Form::Narrow), (level, Form::Wide)]);
        for (level, form) in kinds.into_iter().flatten() {
            let figures = || tasks().filter(|task| (task.level, task.form) == (level, form)).map(|task| task.figures);
            often(figures().filter(|f| f.lo == form.limit()).count());
            often(figures().filter(|f| f.d == 1).count());
            often(figures().filter(|f| f.ln == 1).count());
            often(figures().filter(|f| f.d + 1 == f.co).count());
            often(figures().filter(|f| f.co - f.cn == f.lo - f.ln).count());
        }
        often(tasks().filter(|task| task.figures.cn == 1).count());
        let has = |sheet: &Sheet, form: Form| sheet.tasks.iter().any(|task| task.form == form);
        let narrow = sheets.iter().filter(|sheet| !has(sheet, Form::Wide)).count();
        assert!((900..=1_300).contains(&narrow), "{narrow} narrow sheets");
        often(sheets.iter().filter(|sheet| !has(sheet, Form::Narrow)).count());
        often(sheets.iter().filter(|sheet| has(sheet, Form::Narrow) && has(sheet, Form::Wide)).count());
    }

    #[test]
    fn a_wide_twin_says_the_same_tasks_in_the_wide_form() {
        let mut random = Random::of_test("wide twins");
        for _ in 0..1_000 {
            let mut sheet = valid(&mut random);
            let twin = Draft::of(&sheet).wide_twin();
            sheet.tasks.iter_mut().for_each(|task| task.form = Form::Wide);
            assert_eq!(read(&twin.bytes()), Ok(sheet));
            assert_eq!(twin.wide_twin().bytes(), twin.bytes());
        }
    }
}
