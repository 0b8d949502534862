//! Instructions of both sides, by callgrind: it collects within `bench_measured` only, and writes a file at each return.
use crate::rows::Row;
use std::cmp::Reverse;
use std::collections::HashMap;
use std::fs;
use std::path::Path;

/// Instructions a call on each side.
pub struct Counts {
    pub plain: f64,
    pub proved: f64,
}

/// What callgrind collects: one call.
#[no_mangle]
#[inline(never)]
fn bench_measured(call: &mut dyn FnMut() -> u32) -> u32 {
    call()
}

/// The calls of a row in the order of their files.
fn calls(row: &mut Row) -> Vec<&mut dyn FnMut() -> u32> {
    let mut calls: Vec<&mut dyn FnMut() -> u32> = vec![&mut row.whole.plain, &mut row.whole.proved];
    if let Some(base) = &mut row.base {
        calls.push(&mut base.plain);
        calls.push(&mut base.proved);
    }
    calls
}

/// Makes each call once; before them one that does nothing, whose count is subtracted from the others.
pub fn run(rows: &mut [Row]) {
    bench_measured(&mut || 0);
    for row in rows {
        for call in calls(row) {
            bench_measured(call);
        }
    }
}

/// The file that callgrind wrote at a return; the first return is 1.
fn contents(folder: &Path, part: usize) -> String {
    let file = folder.join(format!("callgrind.out.{part}"));
    fs::read_to_string(&file).unwrap_or_else(|error| panic!("{}: {error}", file.display()))
}

fn total(folder: &Path, part: usize) -> f64 {
    let text = contents(folder, part);
    let total = text.lines().find_map(|line| line.strip_prefix("totals: ")).expect("callgrind's total");
    total.trim().parse().expect("a number of instructions")
}

/// The counts of the rows, out of the files that `run` left.
pub fn counts(rows: &mut [Row], folder: &Path) -> Vec<Counts> {
    let nothing = total(folder, 1);
    let mut part = 1;
    let mut next = || {
        part += 1;
        total(folder, part) - nothing
    };
    rows.iter()
        .map(|row| {
            let whole = (next(), next());
            let base = row.base.as_ref().map_or((0.0, 0.0), |_| (next(), next()));
            let times = f64::from(row.times);
            Counts { plain: (whole.0 - base.0) / times, proved: (whole.1 - base.1) / times }
        })
        .collect()
}

/// The numbers of a row's files, the plain side's and the proved side's.
fn parts(rows: &mut [Row], input: &str, call: &str) -> Option<[usize; 2]> {
    let mut part = 2;
    for row in rows {
        if row.input == input && row.call == call {
            return Some([part, part + 1]);
        }
        part += calls(row).len();
    }
    None
}

/// `(id) name` or `(id)`, as callgrind writes a function.
fn function<'a>(names: &mut HashMap<&'a str, &'a str>, text: &'a str) -> &'a str {
    let (id, name) = text.split_once(' ').unwrap_or((text, ""));
    names.entry(id).or_insert(name)
}

/// Each function's own instructions in one of callgrind's files, the largest first.
fn functions(folder: &Path, part: usize) -> Vec<(String, u64)> {
    let text = contents(folder, part);
    let (mut names, mut own) = (HashMap::new(), HashMap::new());
    let mut current = "";
    let mut lines = text.lines();
    while let Some(line) = lines.next() {
        if let Some(text) = line.strip_prefix("fn=") {
            current = function(&mut names, text);
        } else if let Some(text) = line.strip_prefix("cfn=") {
            function(&mut names, text);
        } else if line.starts_with("calls=") {
            lines.next();
        } else if line.starts_with(|c: char| c.is_ascii_digit() || "+-*".contains(c)) {
            let count: u64 = line.split(' ').nth(1).and_then(|word| word.parse().ok()).unwrap_or(0);
            *own.entry(current).or_insert(0) += count;
        }
    }
    let mut own: Vec<_> = own.into_iter().map(|(name, count)| (name.to_string(), count)).collect();
    own.sort_by_key(|(name, count)| (Reverse(*count), name.clone()));
    own
}

/// Prints where a row's instructions go, on both sides; functions with at least one in a hundred.
pub fn print_functions(rows: &mut [Row], folder: &Path, input: &str, call: &str) -> Option<()> {
    for (side, part) in ["Rust", "proved"].into_iter().zip(parts(rows, input, call)?) {
        let own = functions(folder, part);
        let whole: u64 = own.iter().map(|(_, count)| count).sum();
        println!("{side}: {whole}");
        for (name, count) in own.iter().filter(|(_, count)| 100 * count >= whole) {
            println!("{count:>10} {:>3} %  {name}", 100 * count / whole);
        }
    }
    Some(())
}
