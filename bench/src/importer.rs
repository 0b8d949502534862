//! Import in plain Rust, written from the specification: one pass over the text.
use crate::sheet::{Answer, Refusal};
use dibwunek_tests::reference::answers::NO_TASK;
use dibwunek_tests::reference::import::HEAD;
use dibwunek_tests::reference::reader::NODES;

const TEXT: Refusal = Refusal { number: 17, task: NO_TASK };
const GRAPH: Refusal = Refusal { number: 18, task: NO_TASK };
const OUTSIDE: Refusal = Refusal { number: 19, task: NO_TASK };

/// The largest number of a numeral.
const LARGEST: u32 = 65_535;

/// What an import asks for beside the text.
#[derive(Clone, Copy)]
pub struct Terms {
    pub level: u32,
    pub deadline: u32,
    pub percentage: u32,
}

/// What is left of a text.
struct Scanner<'a> {
    rest: &'a [u8],
}

impl Scanner<'_> {
    fn skip_blanks(&mut self) {
        while let [b'\t' | b'\n' | b'\r' | b' ', rest @ ..] = self.rest {
            self.rest = rest;
        }
    }

    /// The next numeral, if one stands there.
    fn number(&mut self) -> Option<u32> {
        self.skip_blanks();
        let [first @ b'0'..=b'9', rest @ ..] = self.rest else { return None };
        self.rest = rest;
        let mut number = u32::from(first - b'0');
        while let [digit @ b'0'..=b'9', rest @ ..] = self.rest {
            self.rest = rest;
            number = 10 * number + u32::from(digit - b'0');
            if number > LARGEST {
                return None;
            }
        }
        Some(number)
    }

    fn is_over(&mut self) -> bool {
        self.skip_blanks();
        matches!(self.rest, [] | [b'#', ..])
    }
}

/// The first 32 nodes of a graph, their number, and whether every predecessor is below its entry.
struct Graph {
    count: u32,
    times: [u32; NODES],
    masks: [u32; NODES],
    ordered: bool,
}

fn read(text: &[u8]) -> Option<Graph> {
    let mut scanner = Scanner { rest: text };
    let count = scanner.number()?;
    let mut graph = Graph { count, times: [0; NODES], masks: [0; NODES], ordered: true };
    for v in 0..=count + 1 {
        let (number, time, many) = (scanner.number()?, scanner.number()?, scanner.number()?);
        let dummy = v == 0 || v > count;
        if number != v || dummy != (time == 0) {
            return None;
        }
        let mut mask = 0;
        for _ in 0..many {
            let predecessor = scanner.number()?;
            graph.ordered &= predecessor < v;
            if (1..=NODES as u32).contains(&predecessor) {
                mask |= 1 << (predecessor - 1);
            }
        }
        if !dummy && v <= NODES as u32 {
            graph.times[v as usize - 1] = time;
            graph.masks[v as usize - 1] = mask;
        }
    }
    scanner.is_over().then_some(graph)
}

/// The work and the span of nodes with these times.
fn budget(times: &[u32], masks: &[u32]) -> (u32, u32) {
    let mut chains = [0; NODES];
    let (mut work, mut span) = (0, 0);
    for v in 0..times.len() {
        let mut longest = 0;
        let mut mask = masks[v];
        while mask != 0 {
            longest = longest.max(chains[mask.trailing_zeros() as usize]);
            mask &= mask - 1;
        }
        chains[v] = times[v] + longest;
        work += times[v];
        span = span.max(chains[v]);
    }
    (work, span)
}

fn is_lawful(terms: Terms) -> bool {
    terms.level <= 1 && (100..=400).contains(&terms.percentage) && (terms.level == 1 || terms.percentage == 100)
}

pub fn import(text: &[u8], terms: Terms, record: &mut [u8]) -> Answer {
    let Graph { count, times, masks, ordered } = read(text).ok_or(TEXT)?;
    if !is_lawful(terms) || record.len() < HEAD + 4 * count as usize {
        return Err(TEXT);
    }
    let k = count as usize;
    if k == 0 || k > NODES || !ordered {
        return Err(GRAPH);
    }
    let overload = times.map(|time| (time * terms.percentage).div_ceil(100));
    let (cn, ln) = budget(&times[..k], &masks[..k]);
    let (co, lo) = budget(&overload[..k], &masks[..k]);
    let figures = [terms.deadline, cn, co, ln, lo];
    if !figures.iter().all(|figure| (1..=10_000).contains(figure)) {
        return Err(OUTSIDE);
    }
    record[0] = terms.level as u8;
    record[1] = k as u8;
    for (bytes, figure) in record[2..HEAD].chunks_exact_mut(2).zip(figures) {
        bytes.copy_from_slice(&(figure as u16).to_le_bytes());
    }
    for (bytes, mask) in record[HEAD..].chunks_exact_mut(4).zip(&masks[..k]) {
        bytes.copy_from_slice(&mask.to_le_bytes());
    }
    Ok(())
}
