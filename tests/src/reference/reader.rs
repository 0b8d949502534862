//! A reader of sheets by S2 and refusals 1 to 6 of the specification.
//! It shares nothing with the proved one: neither code nor definitions.
use crate::reference::answers::{Cause, Refusal};

/// The most tasks of a sheet.
pub const TASKS: usize = 16;
/// The most nodes of a task.
pub const NODES: usize = 32;

/// What a sheet says: M, and the tasks in their order.
#[derive(Clone, Debug, PartialEq, Eq)]
pub struct Sheet {
    pub processors: u8,
    pub tasks: Vec<Task>,
}

#[derive(Clone, Debug, PartialEq, Eq)]
pub struct Task {
    pub level: Level,
    /// The form of its record.
    pub form: Form,
    pub figures: Figures,
    /// The mask of each node; there are k.
    pub masks: Vec<u32>,
}

#[derive(Clone, Copy, Debug, PartialEq, Eq)]
pub enum Level {
    Low,
    High,
}

/// How the figures of a record are written, and how large they may be.
#[derive(Clone, Copy, Debug, PartialEq, Eq)]
pub enum Form {
    Narrow,
    Wide,
}

impl Form {
    /// The bytes of a figure.
    pub const fn width(self) -> usize {
        match self {
            Form::Narrow => 2,
            Form::Wide => 4,
        }
    }

    /// The largest figure.
    pub const fn limit(self) -> u32 {
        match self {
            Form::Narrow => 10_000,
            Form::Wide => 1_000_000,
        }
    }

    /// The bytes of a record before its masks: level, k and the five figures.
    pub const fn head(self) -> usize {
        2 + 5 * self.width()
    }
}

/// The byte of a level in a form.
pub fn level_byte(level: Level, form: Form) -> u8 {
    match (level, form) {
        (Level::Low, Form::Narrow) => 0,
        (Level::High, Form::Narrow) => 1,
        (Level::Low, Form::Wide) => 16,
        (Level::High, Form::Wide) => 17,
    }
}

/// The level and the form that a byte says, where it says any.
pub fn of_level_byte(byte: u8) -> Option<(Level, Form)> {
    match byte {
        0 => Some((Level::Low, Form::Narrow)),
        1 => Some((Level::High, Form::Narrow)),
        16 => Some((Level::Low, Form::Wide)),
        17 => Some((Level::High, Form::Wide)),
        _ => None,
    }
}

/// The figures in the record's order: D, CN, CO, LN, LO.
#[derive(Clone, Copy, Debug, PartialEq, Eq)]
pub struct Figures {
    pub d: u32,
    pub cn: u32,
    pub co: u32,
    pub ln: u32,
    pub lo: u32,
}

/// An entry of the directory.
struct Pair {
    offset: usize,
    length: usize,
}

/// Reads a sheet: refusal 1; 2 over all pairs; then per task 3, 4, 5, 6.
pub fn read(sheet: &[u8]) -> Result<Sheet, Refusal> {
    let (processors, pairs) = header(sheet).ok_or(Refusal::whole(Cause::Header))?;
    let tasks = records(sheet, &pairs)?
        .into_iter()
        .enumerate()
        .map(|(i, record)| task(record).map_err(|cause| Refusal::of(cause, i)))
        .collect::<Result<_, _>>()?;
    Ok(Sheet { processors, tasks })
}

/// M and the directory, where both ranges hold and the directory is whole.
fn header(sheet: &[u8]) -> Option<(u8, Vec<Pair>)> {
    let [processors @ 1..=64, count @ 1..=16, rest @ ..] = sheet else { return None };
    let directory: Vec<u32> = numbers(rest.get(..4 * usize::from(*count))?, 2).collect();
    let pairs = directory.chunks_exact(2).map(|p| Pair { offset: p[0] as usize, length: p[1] as usize });
    Some((*processors, pairs.collect()))
}

/// The records, where each starts where the last ended and the last ends with the sheet.
fn records<'a>(sheet: &'a [u8], pairs: &[Pair]) -> Result<Vec<&'a [u8]>, Refusal> {
    let mut place = 2 + 4 * pairs.len();
    for (i, pair) in pairs.iter().enumerate() {
        if pair.offset != place {
            return Err(Refusal::of(Cause::Directory, i));
        }
        place += pair.length;
    }
    if place != sheet.len() {
        return Err(Refusal::of(Cause::Directory, pairs.len() - 1));
    }
    Ok(pairs.iter().map(|p| &sheet[p.offset..][..p.length]).collect())
}

fn task(record: &[u8]) -> Result<Task, Cause> {
    let [level, k @ 1..=32, body @ ..] = record else { return Err(Cause::Record) };
    let (level, form) = of_level_byte(*level).ok_or(Cause::Record)?;
    if record.len() != form.head() + 4 * usize::from(*k) {
        return Err(Cause::Record);
    }
    let (head, tail) = body.split_at(5 * form.width());
    let masks: Vec<u32> = numbers(tail, 4).collect();
    let head: Vec<u32> = numbers(head, form.width()).collect();
    let figures = Figures { d: head[0], cn: head[1], co: head[2], ln: head[3], lo: head[4] };
    if !keeps_rules(level, form, figures) {
        Err(Cause::Figures)
    } else if masks.iter().enumerate().any(|(v, mask)| (v..32).any(|bit| mask & (1 << bit) != 0)) {
        Err(Cause::Mask)
    } else if figures.co <= figures.d {
        Err(Cause::NotHeavy)
    } else {
        Ok(Task { level, form, figures, masks })
    }
}

/// The rules of the figures, over the integers.
fn keeps_rules(level: Level, form: Form, figures: Figures) -> bool {
    let range = 1..=i64::from(form.limit());
    let [d, cn, co, ln, lo] = [figures.d, figures.cn, figures.co, figures.ln, figures.lo].map(i64::from);
    [d, cn, co, ln, lo].iter().all(|figure| range.contains(figure))
        && ln <= cn
        && lo <= co
        && cn <= co
        && ln <= lo
        && co - cn >= lo - ln
        && (level == Level::High || (cn == co && ln == lo))
}

/// The numbers of so many bytes each, the lowest byte first.
pub fn numbers(bytes: &[u8], width: usize) -> impl Iterator<Item = u32> + '_ {
    let number = |bytes: &[u8]| bytes.iter().rev().fold(0, |number, &byte| 256 * number + u32::from(byte));
    bytes.chunks_exact(width).map(number)
}

#[cfg(test)]
mod tests {
    use super::*;
    use crate::makers::sheets::CASE_14;

    fn refused(cause: Cause, task: usize) -> Result<Sheet, Refusal> {
        Err(Refusal::of(cause, task))
    }

    /// Reads case 14 after the bytes from `at` on are replaced.
    fn edited(at: usize, bytes: &[u8]) -> Result<Sheet, Refusal> {
        let mut sheet = CASE_14.to_vec();
        sheet[at..at + bytes.len()].copy_from_slice(bytes);
        read(&sheet)
    }

    #[test]
    fn case_14_is_read() {
        let one = |level, figures| Task { level, form: Form::Narrow, figures, masks: vec![0] };
        let a = one(Level::High, Figures { d: 45, cn: 9, co: 52, ln: 4, lo: 20 });
        let b = one(Level::High, Figures { d: 54, cn: 11, co: 80, ln: 4, lo: 42 });
        let e = one(Level::Low, Figures { d: 18, cn: 66, co: 66, ln: 6, lo: 6 });
        assert_eq!(CASE_14.len(), 62);
        assert_eq!(read(&CASE_14), Ok(Sheet { processors: 8, tasks: vec![a, b, e] }));
    }

    #[test]
    fn row_1_is_the_header_and_its_directory() {
        let header = Err(Refusal::whole(Cause::Header));
        for length in 0..14 {
            assert_eq!(read(&CASE_14[..length]), header, "cut to {length}");
        }
        for (at, value) in [(0, 0), (0, 65), (0, 255), (1, 0), (1, 17), (1, 255), (1, 16)] {
            assert_eq!(edited(at, &[value]), header, "{value} at {at}");
        }
        for processors in [1, 64] {
            assert!(edited(0, &[processors]).is_ok());
        }
    }

    #[test]
    fn row_2_is_the_first_pair_out_of_place_or_the_last() {
        for (at, value, task) in [(2, 15, 0), (2, 13, 0), (4, 17, 1), (6, 31, 1), (8, 15, 2), (10, 47, 2), (12, 15, 2)]
        {
            assert_eq!(edited(at, &[value]), refused(Cause::Directory, task), "{value} at {at}");
        }
        for length in 14..62 {
            assert_eq!(read(&CASE_14[..length]), refused(Cause::Directory, 2), "cut to {length}");
        }
        let past = [14, 0, 17, 0, 31, 0, 16, 0, 47, 0, 16, 0];
        assert_eq!(edited(2, &past), refused(Cause::Directory, 2), "an end past the sheet counts against the last");
        let longer: Vec<u8> = CASE_14.iter().copied().chain([0]).collect();
        assert_eq!(read(&longer), refused(Cause::Directory, 2));
    }

    #[test]
    fn row_3_is_level_k_or_length() {
        for (task, start) in [(0, 14), (1, 30), (2, 46)] {
            for (at, value) in [(0, 2), (0, 15), (0, 16), (0, 17), (0, 18), (0, 255), (1, 0), (1, 2), (1, 33)] {
                assert_eq!(edited(start + at, &[value]), refused(Cause::Record, task), "{value} at {start} + {at}");
            }
        }
        let moved = [14, 0, 15, 0, 29, 0, 17, 0];
        assert_eq!(edited(2, &moved), refused(Cause::Record, 0));
        let empty = [14, 0, 0, 0, 14, 0, 32, 0];
        assert_eq!(edited(2, &empty), refused(Cause::Record, 0));
    }

    #[test]
    fn row_4_is_a_rule_of_the_figures() {
        let a = |d: u16, cn: u16, co: u16, ln: u16, lo: u16| {
            let bytes: Vec<u8> = [d, cn, co, ln, lo].iter().flat_map(|x| x.to_le_bytes()).collect();
            edited(16, &bytes)
        };
        assert!(a(45, 9, 52, 4, 47).is_ok(), "CO − CN = LO − LN");
        assert!(a(9_999, 10_000, 10_000, 10_000, 10_000).is_ok());
        assert!(a(1, 1, 2, 1, 1).is_ok());
        let broken = [
            (0, 9, 52, 4, 20),
            (10_001, 9, 52, 4, 20),
            (45, 9, 52, 0, 20),
            (45, 9, 10_001, 4, 20),
            (45, 3, 52, 4, 20),
            (45, 9, 52, 10, 53),
            (45, 53, 52, 4, 4),
            (45, 9, 52, 4, 3),
            (45, 9, 52, 4, 48),
        ];
        for (d, cn, co, ln, lo) in broken {
            assert_eq!(a(d, cn, co, ln, lo), refused(Cause::Figures, 0), "{d} {cn} {co} {ln} {lo}");
        }
        assert_eq!(edited(50, &[65]), refused(Cause::Figures, 2), "a low task has CN = CO");
        assert_eq!(edited(54, &[5]), refused(Cause::Figures, 2), "a low task has LN = LO");
    }

    /// A in the wide form, with one node.
    fn wide(level: u8, figures: [u32; 5]) -> Result<Sheet, Refusal> {
        let figures = figures.into_iter().flat_map(u32::to_le_bytes);
        let record = [level, 1].into_iter().chain(figures).chain([0; 4]);
        read(&[8, 1, 6, 0, 26, 0].into_iter().chain(record).collect::<Vec<u8>>())
    }

    #[test]
    fn the_wide_form_has_figures_of_four_bytes() {
        let figures = Figures { d: 400_000, cn: 70_000, co: 0x0007_0605, ln: 4, lo: 20 };
        let task = Task { level: Level::High, form: Form::Wide, figures, masks: vec![0] };
        let of_a = [400_000, 70_000, 0x0007_0605, 4, 20];
        assert_eq!(wide(17, of_a), Ok(Sheet { processors: 8, tasks: vec![task] }));
        assert_eq!(wide(16, of_a), refused(Cause::Figures, 0), "a low task has CN = CO");
        for level in [0, 1, 2, 15, 18, 32, 33] {
            assert_eq!(wide(level, of_a), refused(Cause::Record, 0), "level {level}");
        }
        assert!(wide(16, [999_999, 1_000_000, 1_000_000, 1_000_000, 1_000_000]).is_ok());
        assert_eq!(wide(17, [1, 1, 1_000_001, 1, 1]), refused(Cause::Figures, 0));
        assert_eq!(wide(17, [1_000_000, 1, 1_000_000, 1, 1]), refused(Cause::NotHeavy, 0));
    }

    #[test]
    fn row_5_is_a_bit_at_or_above_the_node() {
        for (task, start) in [(0, 14), (1, 30), (2, 46)] {
            for (byte, bit) in (0..4).flat_map(|byte| (0..8).map(move |bit| (byte, bit))) {
                assert_eq!(edited(start + 12 + byte, &[1 << bit]), refused(Cause::Mask, task));
            }
        }
    }

    #[test]
    fn row_6_is_a_task_that_is_not_heavy() {
        for d in [52, 53, 255] {
            assert_eq!(edited(16, &[d]), refused(Cause::NotHeavy, 0));
        }
        assert!(edited(16, &[51]).is_ok());
    }

    #[test]
    fn an_earlier_task_comes_first_and_an_earlier_row_within_a_task() {
        let mut sheet = CASE_14.to_vec();
        let faults = [
            (30, 2, (Cause::Record, 1)),
            (16, 52, (Cause::NotHeavy, 0)),
            (26, 1, (Cause::Mask, 0)),
            (18, 0, (Cause::Figures, 0)),
            (15, 0, (Cause::Record, 0)),
            (10, 0, (Cause::Directory, 2)),
            (6, 0, (Cause::Directory, 1)),
        ];
        for (at, value, (cause, task)) in faults {
            sheet[at] = value;
            assert_eq!(read(&sheet), refused(cause, task), "with {value} at {at}");
        }
    }
}
