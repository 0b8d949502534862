//! An importer of graphs in the Standard Task Graph format by S14 and refusals 17 to 19 of the specification.
//! It splits the whole text into words first, cuts all of their numbers into entries, whatever the count, holds the graph
//! as a set of edges, and lengthens chains along them until none gets longer. It shares nothing with the proved one:
//! neither code nor method.
use crate::reference::answers::{Cause, Refusal, Reply};
use crate::reference::reader::{Figures, Form, Level, Task, NODES};
use std::collections::BTreeSet;

/// What an import asks for beside the text, right or wrong.
#[derive(Clone, Copy, Debug, PartialEq, Eq)]
pub struct Terms {
    pub level: u32,
    /// D.
    pub deadline: u32,
    pub percentage: u32,
}

/// An imported task, and the times of its nodes.
#[derive(Clone, Debug, PartialEq, Eq)]
pub struct Imported {
    pub task: Task,
    pub nominal: Vec<u32>,
    pub overload: Vec<u32>,
}

/// The bytes of a record before its masks.
pub const HEAD: usize = 12;

/// An entry as a text has it.
struct Entry {
    number: u16,
    time: u16,
    predecessors: Vec<u16>,
}

/// One node comes before another.
#[derive(Clone, Copy, Debug, PartialEq, Eq, PartialOrd, Ord)]
struct Edge {
    from: usize,
    to: usize,
}

/// The task that a text says, for a buffer of so many bytes: refusal 17, then 18, then 19.
pub fn import(text: &[u8], terms: Terms, room: usize) -> Result<Imported, Refusal> {
    let lawful = |entries: &Vec<Entry>| is_lawful(terms) && HEAD + 4 * count(entries) <= room;
    let entries = entries_of(text).filter(lawful).ok_or(Refusal::whole(Cause::Text))?;
    let nodes = 1..=NODES;
    if !nodes.contains(&count(&entries)) || !entries.iter().all(names_lower_ones) {
        return Err(Refusal::whole(Cause::Graph));
    }
    let nominal: Vec<u32> = of_nodes(&entries).iter().map(|entry| entry.time.into()).collect();
    let overload: Vec<u32> = nominal.iter().map(|&time| (time * terms.percentage).div_ceil(100)).collect();
    let edges = edges_of(&entries);
    let figures = figures(terms.deadline, &nominal, &overload, &edges).ok_or(Refusal::whole(Cause::Outside))?;
    let level = if terms.level == 0 { Level::Low } else { Level::High };
    let masks = masks(nominal.len(), &edges);
    Ok(Imported { task: Task { level, form: Form::Narrow, figures, masks }, nominal, overload })
}

/// The call Import: its answer, and the buffer after it.
pub fn import_into(text: &[u8], terms: Terms, buffer: &[u8]) -> (Reply, Vec<u8>) {
    match import(text, terms, buffer.len()) {
        Ok(imported) => {
            let record = imported.record();
            let behind = &buffer[record.len()..];
            (Reply::Done, [&record, behind].concat())
        }
        Err(refusal) => (refusal.into(), buffer.to_vec()),
    }
}

impl Imported {
    /// The record: level, k, D, CN, CO, LN, LO, and the masks.
    pub fn record(&self) -> Vec<u8> {
        let Task { level, figures: Figures { d, cn, co, ln, lo }, masks, .. } = &self.task;
        let mut record = vec![u8::from(*level == Level::High), masks.len() as u8];
        record.extend([d, cn, co, ln, lo].into_iter().flat_map(|figure| (*figure as u16).to_le_bytes()));
        record.extend(masks.iter().flat_map(|mask| mask.to_le_bytes()));
        record
    }
}

/// Level and percentage.
fn is_lawful(terms: Terms) -> bool {
    match terms.level {
        0 => terms.percentage == 100,
        1 => (100..=400).contains(&terms.percentage),
        _ => false,
    }
}

/// The numbers of a text, where nothing but numerals and blanks stands before the first `#`.
fn numbers_of(text: &[u8]) -> Option<Vec<u16>> {
    let told = text.split(|&byte| byte == b'#').next()?;
    let words = told.split(|byte| b"\t\n\r ".contains(byte)).filter(|word| !word.is_empty());
    words.map(number_of).collect()
}

/// The number of a word of digits. The largest is that of sixteen bits.
fn number_of(word: &[u8]) -> Option<u16> {
    let digits = word.iter().all(u8::is_ascii_digit).then_some(word)?;
    std::str::from_utf8(digits).ok()?.parse().ok()
}

/// The entries of a text of the format, the two dummies among them.
fn entries_of(text: &[u8]) -> Option<Vec<Entry>> {
    let numbers = numbers_of(text)?;
    let (&count, rest) = numbers.split_first()?;
    let entries = cut(rest)?;
    let last = usize::from(count) + 1;
    let in_place = |(v, entry): (usize, &Entry)| {
        let dummy = v == 0 || v == last;
        usize::from(entry.number) == v && dummy == (entry.time == 0)
    };
    (entries.len() == last + 1 && entries.iter().enumerate().all(in_place)).then_some(entries)
}

/// Entries that numbers say one after the other, where the last of them ends with the numbers.
fn cut(mut numbers: &[u16]) -> Option<Vec<Entry>> {
    let mut entries = Vec::new();
    while let [number, time, many, rest @ ..] = numbers {
        let (predecessors, rest) = rest.split_at_checked(usize::from(*many))?;
        entries.push(Entry { number: *number, time: *time, predecessors: predecessors.to_vec() });
        numbers = rest;
    }
    numbers.is_empty().then_some(entries)
}

/// The entries that are not dummies.
fn of_nodes(entries: &[Entry]) -> &[Entry] {
    &entries[1..entries.len() - 1]
}

fn count(entries: &[Entry]) -> usize {
    of_nodes(entries).len()
}

fn names_lower_ones(entry: &Entry) -> bool {
    entry.predecessors.iter().all(|&predecessor| predecessor < entry.number)
}

/// The edges between nodes, each once. Entry 0 is no node.
fn edges_of(entries: &[Entry]) -> BTreeSet<Edge> {
    let node = |number: u16| usize::from(number).checked_sub(1);
    let into = |entry: &Entry| {
        let to = usize::from(entry.number) - 1;
        entry.predecessors.iter().filter_map(move |&from| Some(Edge { from: node(from)?, to })).collect::<Vec<_>>()
    };
    of_nodes(entries).iter().flat_map(into).collect()
}

/// The mask of each node: a power of two for each edge that leads to it.
fn masks(nodes: usize, edges: &BTreeSet<Edge>) -> Vec<u32> {
    let mut masks = vec![0; nodes];
    for edge in edges {
        masks[edge.to] += 2u32.pow(edge.from as u32);
    }
    masks
}

/// The figures, where each is from 1 to 10,000.
fn figures(deadline: u32, nominal: &[u32], overload: &[u32], edges: &BTreeSet<Edge>) -> Option<Figures> {
    let work = |times: &[u32]| times.iter().sum();
    let figure = |figure: u32| (1..=10_000).contains(&figure).then_some(figure);
    Some(Figures {
        d: figure(deadline)?,
        cn: figure(work(nominal))?,
        co: figure(work(overload))?,
        ln: figure(span(nominal, edges))?,
        lo: figure(span(overload, edges))?,
    })
}

/// The longest chain. At first a chain to each node is its own time; an edge makes a chain of the one to its start.
fn span(times: &[u32], edges: &BTreeSet<Edge>) -> u32 {
    let mut longest = times.to_vec();
    loop {
        let before = longest.clone();
        for &Edge { from, to } in edges {
            longest[to] = longest[to].max(before[from] + times[to]);
        }
        if longest == before {
            return longest.into_iter().max().unwrap_or(0);
        }
    }
}

#[cfg(test)]
mod tests {
    use super::*;
    use crate::makers::graphs::{in_lines, random_graph};
    use crate::makers::random::Random;

    const HIGH: Terms = Terms { level: 1, deadline: 12, percentage: 150 };
    /// Nodes 0 and 1 with times 3 and 4, before node 2 with time 5.
    const THREE: &[u8] = b"3\n0 0 0\n1 3 1 0\n2 4 1 0\n3 5 2 1 2\n4 0 1 3\n";

    fn refused(text: &[u8]) -> Option<Cause> {
        import(text, HIGH, 1_000).err().map(|refusal| refusal.cause)
    }

    #[test]
    fn three_nodes_are_imported() {
        let imported = import(THREE, HIGH, 24).unwrap();
        assert_eq!(imported.nominal, [3, 4, 5]);
        assert_eq!(imported.overload, [5, 6, 8]);
        let figures = Figures { d: 12, cn: 12, co: 19, ln: 9, lo: 14 };
        assert_eq!(imported.task, Task { level: Level::High, form: Form::Narrow, figures, masks: vec![0, 0, 3] });
        let record = [1, 3, 12, 0, 12, 0, 19, 0, 9, 0, 14, 0, 0, 0, 0, 0, 0, 0, 0, 0, 3, 0, 0, 0];
        assert_eq!(imported.record(), record);
        assert_eq!(import_into(THREE, HIGH, &[7; 26]), (Reply::Done, [&record[..], &[7, 7]].concat()));
        assert_eq!(import_into(THREE, HIGH, &[7; 23]), (Reply::Refused(17, 255), vec![7; 23]));
    }

    #[test]
    fn numbers_are_words_of_digits() {
        assert_eq!(numbers_of(b""), Some(vec![]));
        assert_eq!(numbers_of(b" \t\r\n# 1"), Some(vec![]));
        assert_eq!(numbers_of(b"007\t65535\r\n0 000065535#x"), Some(vec![7, 65_535, 0, 65_535]));
        for text in [&b"65536"[..], b"1 -2", b"+1", b"1.0", b"1\x0b2", b"1 x #", b"99999999999999999999999", b"\xb2"] {
            assert_eq!(numbers_of(text), None, "{text:?}");
        }
    }

    #[test]
    fn the_refusals() {
        assert_eq!(refused(THREE), None);
        for text in [&b""[..], b"#", b"1", b"0 0 0 0", b"0 0 0 0 1 0 0 0", b"1 0 0 0 1 0 0 2 0 0", b"0 0 0 0 1 1 0"] {
            assert_eq!(refused(text), Some(Cause::Text), "{text:?}");
        }
        for text in [&b"0 0 0 0 1 0 0"[..], b"0 0 0 1 0 1 0 0", b"1 0 0 0 1 9 1 1 2 0 0", b"1 0 0 0 1 9 0 2 0 1 2"] {
            assert_eq!(refused(text), Some(Cause::Graph), "{text:?}");
        }
        assert_eq!(refused(b"1 0 0 0 1 6666 0 2 0 0"), None);
        assert_eq!(refused(b"1 0 0 0 1 6667 0 2 0 0"), Some(Cause::Outside));
    }

    /// The longest chain from a node on, each chain looked at by itself.
    fn longest_from(times: &[u32], masks: &[u32], v: usize) -> u32 {
        let next = (v + 1..times.len()).filter(|&w| masks[w] >> v & 1 == 1);
        times[v] + next.map(|w| longest_from(times, masks, w)).max().unwrap_or(0)
    }

    #[test]
    fn spans_are_those_of_the_longest_chains() {
        let mut random = Random::of_test("spans");
        for _ in 0..2_000 {
            let nodes = random.within(1..=10);
            let text = in_lines(&random_graph(&mut random, nodes, 80));
            let Imported { task, nominal, overload } = import(&text, HIGH, 52).unwrap();
            let longest = |times: &[u32]| (0..nodes).map(|v| longest_from(times, &task.masks, v)).max();
            assert_eq!(longest(&nominal), Some(task.figures.ln));
            assert_eq!(longest(&overload), Some(task.figures.lo));
        }
    }
}
