//! Faulty sheets, each with the answer that the specification gives it. A fault is put into a draft whose other parts hold,
//! so that one refusal alone has cause.
use crate::makers::random::Random;
use crate::makers::sheets::{figure_bytes, form_of, pair, Draft};
use crate::reference::answers::Answer;
use crate::reference::reader::{numbers, of_level_byte, Level, NODES};

/// A sheet, and the answer that it must get.
pub struct Faulty {
    pub sheet: Vec<u8>,
    pub answer: Answer,
}

/// A family of faults of one record: all records that come of one fault in it, at least one.
pub type Family = fn(&[u8], &mut Random) -> Vec<Vec<u8>>;

/// The families by their refusal, in the order of the refusals. Each gives no cause to the refusals before it in a record that kept
/// them, and each but the first leaves a record of the right length.
pub const FAMILIES: [(u8, Family); 4] = [(3, shapes), (4, figures), (5, masks), (6, not_heavy)];

/// Every single fault of a record, with the number of its refusal.
pub fn of_record(record: &[u8], random: &mut Random) -> Vec<(u8, Vec<u8>)> {
    let mut all = Vec::new();
    for (number, family) in FAMILIES {
        all.extend(family(record, random).into_iter().map(|faulty| (number, faulty)));
    }
    all
}

/// A single fault of a record, with the number of its refusal; the numbers are equally likely.
pub fn one_of_record(record: &[u8], random: &mut Random) -> (u8, Vec<u8>) {
    let (number, family) = *random.pick(&FAMILIES);
    let faulty = family(record, random);
    (number, random.pick(&faulty).clone())
}

/// Records with two faults, of two refusals, with the number that comes first.
pub fn twice_of_record(record: &[u8], random: &mut Random) -> Vec<(u8, Vec<u8>)> {
    let mut all = Vec::new();
    for (i, (number, first)) in FAMILIES.into_iter().enumerate() {
        for (_, second) in FAMILIES.into_iter().skip(i + 1) {
            let faulty = second(record, random);
            let base = random.pick(&faulty);
            all.extend(first(base, random).into_iter().map(|twice| (number, twice)));
        }
    }
    all
}

/// Refusal 1: M or n out of range, and the sheet cut within its directory.
pub fn of_header(draft: &Draft) -> Vec<Faulty> {
    let sheet = draft.bytes();
    let edits = [(0, 0), (0, 65), (0, 128), (0, 255), (1, 0), (1, 17), (1, 128), (1, 255)];
    let out_of_range = edits.into_iter().map(|(at, value)| {
        let mut sheet = sheet.clone();
        sheet[at] = value;
        sheet
    });
    let cut = (0..2 + 4 * draft.records.len()).map(|length| sheet[..length].to_vec());
    out_of_range.chain(cut).map(|sheet| Faulty { sheet, answer: (1, 255) }).collect()
}

/// Refusal 2: each pair out of place, and the last end before or past the sheet's. The draft's records are not empty.
pub fn of_directory(draft: &Draft, random: &mut Random) -> Vec<Faulty> {
    let count = draft.records.len();
    let last = count - 1;
    let sheet = draft.bytes();
    let places = draft.places();
    let mut all = Vec::new();
    let mut add = |sheet: Vec<u8>, task: usize| all.push(Faulty { sheet, answer: (2, task as u8) });
    let with_pair = |task, offset, length| {
        let mut sheet = sheet.clone();
        set_pair(&mut sheet, task, offset, length);
        sheet
    };
    for task in 0..count {
        let (place, length) = (places[task], draft.records[task].len());
        let elsewhere = place + random.within(1..=65_535);
        for offset in [place - 1, place + 1, place ^ 256, 0, 65_535, elsewhere] {
            add(with_pair(task, offset, length), task);
        }
        let other = length + random.within(1..=65_535);
        for wrong in [length - 1, length + 1, length ^ 256, 0, 65_535, other] {
            add(with_pair(task, place, wrong), last.min(task + 1));
        }
        add(with_gap(draft, task), task);
        for shift in [65_535, 1, random.within(1..=65_535)] {
            add(with_shift(draft, task, shift), first_wrapped(&places, task, shift).unwrap_or(last));
        }
        if task < last {
            let mut swapped = with_pair(task, places[task + 1], draft.records[task + 1].len());
            set_pair(&mut swapped, task + 1, place, length);
            add(swapped, task);
        }
    }
    for more in [1, 2, 4, random.within(1..=5_000), 65_536, 131_072] {
        add(sheet.iter().copied().chain(random.bytes(more)).collect(), last);
    }
    all
}

/// The draft's sheet with a byte between a record and what stands before it, which the directory knows of.
fn with_gap(draft: &Draft, task: usize) -> Vec<u8> {
    let place = draft.places()[task];
    let mut sheet = with_shift_of_offsets(draft, task, 1);
    sheet.insert(place, 0);
    sheet
}

/// The draft's sheet with a task's length changed and all later offsets with it, modulo 65,536.
fn with_shift(draft: &Draft, task: usize, shift: usize) -> Vec<u8> {
    let mut sheet = with_shift_of_offsets(draft, task + 1, shift);
    set_pair(&mut sheet, task, draft.places()[task], draft.records[task].len() + shift);
    sheet
}

fn with_shift_of_offsets(draft: &Draft, from: usize, shift: usize) -> Vec<u8> {
    let mut sheet = draft.bytes();
    for task in from..draft.records.len() {
        set_pair(&mut sheet, task, draft.places()[task] + shift, draft.records[task].len());
    }
    sheet
}

fn set_pair(sheet: &mut [u8], task: usize, offset: usize, length: usize) {
    sheet[2 + 4 * task..][..4].copy_from_slice(&pair(offset, length));
}

/// The first later task that `with_shift` puts out of place: its offset and the end before it differ, since one of them
/// wraps and the other does not.
fn first_wrapped(places: &[usize], task: usize, shift: usize) -> Option<usize> {
    let length = places[task + 1] - places[task] + shift;
    let end = places[task] + length % 65_536;
    (task + 1..places.len() - 1).find(|&later| {
        let stands = (places[later] + shift) % 65_536;
        stands != end + places[later] - places[task + 1]
    })
}

/// Refusal 3: level, k or the record's length wrong. A level of the other form asks for another length.
fn shapes(record: &[u8], random: &mut Random) -> Vec<Vec<u8>> {
    let k = record[1];
    let head = form_of(record).head();
    let mut all = Vec::new();
    for level in wrong_levels(record) {
        all.push(with_byte(record, 0, level));
    }
    for wrong in [0, 33, 64, 255, k - 1, k + 1] {
        all.push(with_byte(record, 1, wrong));
    }
    for length in [0, 1, 2, head - 1, head, record.len() - 10, record.len() - 4, record.len() - 2, record.len() - 1] {
        all.push(record[..length].to_vec());
    }
    for more in [1, 2, 4, 10, 128, random.within(1..=1_000)] {
        all.push(record.iter().copied().chain(random.bytes(more)).collect());
    }
    let of_no_node = with_byte(&record[..head], 1, 0);
    let masks = record[head..].iter().copied().cycle().take(4 * (NODES + 1));
    let of_33_nodes = with_byte(&record[..head], 1, 33).into_iter().chain(masks).collect();
    all.extend([of_no_node, of_33_nodes]);
    all
}

/// Levels that are none, and those of the form that a record has not.
fn wrong_levels(record: &[u8]) -> impl Iterator<Item = u8> {
    let form = form_of(record);
    let is_other = move |&level: &u8| of_level_byte(level).is_none_or(|(_, other)| other != form);
    [0, 1, 2, 3, 15, 16, 17, 18, 32, 33, 128, 255].into_iter().filter(is_other)
}

/// Refusal 4: each figure out of its range, and each rule broken, alone where the other rules allow it.
fn figures(record: &[u8], random: &mut Random) -> Vec<Vec<u8>> {
    let [cn, co, ln] = [CN, CO, LN].map(|place| figure(record, place));
    let limit = limit(record);
    let (past, largest) = (limit + 1, 256usize.pow(form_of(record).width() as u32) - 1);
    let mut all = Vec::new();
    let mut add = |edits: &[(usize, usize)]| all.push(with_figures(record, edits));
    for place in [D, CN, CO, LN, LO] {
        for value in [0, past, largest, random.within(past..=largest)] {
            add(&[(place, value)]);
        }
    }
    for edits in [
        [(CN, 0), (LN, 0), (CO, co), (LO, co)],
        [(CN, cn), (LN, 0), (CO, co), (LO, 0)],
        [(CN, 0), (LN, 0), (CO, 0), (LO, 0)],
        [(CN, past), (LN, ln), (CO, past), (LO, ln)],
        [(CN, cn), (LN, cn), (CO, past), (LO, past)],
        [(CN, past), (LN, past), (CO, past), (LO, past)],
    ] {
        add(&edits);
    }
    let rules: &[Break] = if is_low(record) { &OF_LOW } else { &OF_HIGH };
    for rule in rules {
        for _ in 0..3 {
            let Four { cn, ln, co, lo } = rule(co, limit, random);
            add(&[(CN, cn), (LN, ln), (CO, co), (LO, lo)]);
        }
    }
    all
}

/// The figures that the rules relate.
struct Four {
    cn: usize,
    ln: usize,
    co: usize,
    lo: usize,
}

/// A break of a rule, given a lawful CO above 1 and the largest figure.
type Break = fn(usize, usize, &mut Random) -> Four;

/// Breaks of a high task's rules.
const OF_HIGH: [Break; 6] = [
    // LN > CN alone.
    |co, _, random| {
        let cn = random.skewed(1..=co - 1);
        let ln = random.skewed(cn + 1..=co);
        Four { cn, ln, co, lo: random.skewed(ln..=co) }
    },
    // LO > CO, with LN > CN.
    |co, limit, random| {
        let co = co.min(limit - 1);
        let cn = random.skewed(1..=co);
        Four { cn, ln: cn + 1, co, lo: co + 1 }
    },
    // LO > CO, with CO − CN < LO − LN.
    |co, limit, random| {
        let co = co.min(limit - 1);
        let cn = random.skewed(1..=co);
        Four { cn, ln: random.skewed(1..=cn), co, lo: random.skewed(co + 1..=limit) }
    },
    // CN > CO, with LN = LO.
    |co, limit, random| {
        let co = co.min(limit - 1);
        let ln = random.skewed(1..=co);
        Four { cn: random.skewed(co + 1..=limit), ln, co, lo: ln }
    },
    // LN > LO alone.
    |co, _, random| {
        let cn = random.skewed(2..=co);
        let ln = random.skewed(2..=cn);
        Four { cn, ln, co, lo: random.skewed(1..=ln - 1) }
    },
    // CO − CN < LO − LN alone.
    |co, _, random| {
        let cn = random.skewed(2..=co);
        let ln = random.skewed(1..=cn - 1);
        Four { cn, ln, co, lo: ln + (co - cn) + random.skewed(1..=cn - ln) }
    },
];

/// Breaks of a low task's rules.
const OF_LOW: [Break; 4] = [
    // L > C.
    |co, limit, random| {
        let co = co.min(limit - 1);
        let lo = random.skewed(co + 1..=limit);
        Four { cn: co, ln: lo, co, lo }
    },
    // CN ≠ CO alone.
    |co, _, random| {
        let cn = random.skewed(1..=co - 1);
        let ln = random.skewed(1..=cn);
        Four { cn, ln, co, lo: ln }
    },
    // CN ≠ CO and LN ≠ LO, as a high task may have them.
    |co, _, random| {
        let cn = random.skewed(1..=co - 1);
        let ln = random.skewed(1..=cn);
        Four { cn, ln, co, lo: ln + random.skewed(1..=co - cn) }
    },
    // LN ≠ LO.
    |co, _, random| {
        let ln = random.skewed(1..=co - 1);
        Four { cn: co, ln, co, lo: random.skewed(ln + 1..=co) }
    },
];

/// Refusal 5: each node's mask with its own bit, or a higher one.
fn masks(record: &[u8], random: &mut Random) -> Vec<Vec<u8>> {
    let head = form_of(record).head();
    let mut all = Vec::new();
    for v in 0..(record.len() - head) / 4 {
        for bit in [v, random.within(v..=NODES - 1), NODES - 1] {
            let at = head + 4 * v + bit / 8;
            all.push(with_byte(record, at, record[at] | 1 << (bit % 8)));
        }
    }
    all
}

/// Refusal 6: D at CO, and above it where there is room.
fn not_heavy(record: &[u8], random: &mut Random) -> Vec<Vec<u8>> {
    let (co, limit) = (figure(record, CO), limit(record));
    [co, random.skewed(co..=limit), limit].map(|d| with_figures(record, &[(D, d)])).to_vec()
}

// The places of the figures among the five.
const D: usize = 0;
const CN: usize = 1;
const CO: usize = 2;
const LN: usize = 3;
const LO: usize = 4;

fn is_low(record: &[u8]) -> bool {
    matches!(of_level_byte(record[0]), Some((Level::Low, _)))
}

/// The largest figure of a record's form.
fn limit(record: &[u8]) -> usize {
    form_of(record).limit() as usize
}

fn figure(record: &[u8], place: usize) -> usize {
    let form = form_of(record);
    numbers(&record[2..form.head()], form.width()).nth(place).map_or(0, |figure| figure as usize)
}

/// The record with some figures, by their places among the five, replaced.
pub fn with_figures(record: &[u8], edits: &[(usize, usize)]) -> Vec<u8> {
    let (mut record, form) = (record.to_vec(), form_of(record));
    for &(place, value) in edits {
        record[2 + form.width() * place..][..form.width()].copy_from_slice(&figure_bytes(form, value));
    }
    record
}

fn with_byte(bytes: &[u8], at: usize, value: u8) -> Vec<u8> {
    let mut bytes = bytes.to_vec();
    bytes[at] = value;
    bytes
}
