//! Makers of graphs in the Standard Task Graph format, of texts that say them in many layouts, and of faulty texts.
use crate::makers::random::Random;

#[derive(Clone, Debug, PartialEq, Eq)]
pub struct Entry {
    pub time: usize,
    /// As they are listed: in any order, some more than once.
    pub predecessors: Vec<usize>,
}

/// The entries of a graph in their order. The first and the last are dummies.
#[derive(Clone, Debug, PartialEq, Eq)]
pub struct Graph {
    pub entries: Vec<Entry>,
}

/// The largest number of a numeral.
pub const LARGEST: usize = 65_535;
/// The places of an entry's number, time and first predecessor in its line.
const NUMBER: usize = 0;
const TIME: usize = 1;
const PREDECESSORS: usize = 3;

const BLANKS: &[u8] = b"\t\n\r ";

impl Graph {
    /// The nodes with a dummy before and behind them.
    pub fn of(nodes: Vec<Entry>) -> Graph {
        let dummy = || Entry { time: 0, predecessors: Vec::new() };
        Graph { entries: [vec![dummy()], nodes, vec![dummy()]].concat() }
    }

    /// Nodes with these times, all side by side.
    pub fn side_by_side(times: &[usize]) -> Graph {
        Graph::of(times.iter().map(|&time| Entry { time, predecessors: vec![0] }).collect())
    }

    /// Nodes with these times, one after the other.
    pub fn in_a_row(times: &[usize]) -> Graph {
        let node = |(v, &time): (usize, &usize)| Entry { time, predecessors: vec![v] };
        Graph::of(times.iter().enumerate().map(node).collect())
    }

    /// The nodes, without the dummies.
    pub fn nodes(&self) -> &[Entry] {
        &self.entries[1..=self.count()]
    }

    pub fn count(&self) -> usize {
        self.entries.len() - 2
    }

    /// The numbers that say it: the count, then for each entry its own.
    pub fn lines(&self) -> Vec<Vec<usize>> {
        let entry = |(v, entry): (usize, &Entry)| {
            let Entry { time, predecessors } = entry;
            [&[v, *time, predecessors.len()], &predecessors[..]].concat()
        };
        std::iter::once(vec![self.count()]).chain(self.entries.iter().enumerate().map(entry)).collect()
    }

    /// The numerals that say it, without leading zeros.
    pub fn words(&self) -> Vec<String> {
        words(&self.lines())
    }
}

/// A random graph of so many nodes with times up to the largest one: of no edges, few, many, or all.
pub fn random_graph(random: &mut Random, nodes: usize, largest: usize) -> Graph {
    let odds = *random.pick(&[0, 1, 1, 2, 3, 6, 20]);
    let tidy = random.once_in(3);
    let mut graph = Graph::of(Vec::new());
    for v in 1..=nodes {
        let before = (1..v).filter(|_| odds > 0 && random.once_in(odds)).collect();
        let predecessors = listed(random, before, tidy);
        graph.entries.insert(v, Entry { time: random.skewed(1..=largest), predecessors });
    }
    let ends = (1..=nodes).filter(|_| random.once_in(2)).collect();
    graph.entries[nodes + 1].predecessors = listed(random, ends, tidy);
    graph
}

/// Predecessors as a file may list them: with entry 0 where there is none else. Where they are not tidy, entry 0 may be
/// missing there or stand with others, some repeat, and they have any order.
fn listed(random: &mut Random, mut predecessors: Vec<usize>, tidy: bool) -> Vec<usize> {
    if predecessors.is_empty() && (tidy || random.once_in(2)) {
        predecessors.push(0);
    }
    if tidy || predecessors.is_empty() {
        return predecessors;
    }
    if random.once_in(3) {
        predecessors.push(0);
    }
    for _ in 0..*random.pick(&[0, 0, 1, 3]) {
        predecessors.push(*random.pick(&predecessors));
    }
    for i in (1..predecessors.len()).rev() {
        predecessors.swap(i, random.within(0..=i));
    }
    predecessors
}

/// Nodes that keep so many processors busy, at least two, for some rounds, and with higher numbers a row that no node
/// outlasts: the graph, and the tick with which the last node ends on these processors.
pub fn rounds_then_row(random: &mut Random, processors: usize) -> (Graph, usize) {
    let (rounds, each, steps) = (random.within(1..=3), random.within(1..=6), random.within(1..=4));
    let beside = processors * rounds;
    let row: Vec<usize> = (0..steps).map(|step| if step == 0 { each } else { random.within(1..=6) }).collect();
    let ends = rounds * each + row.iter().sum::<usize>();
    let mut graph = Graph::side_by_side(&[vec![each; beside], row].concat());
    for v in beside + 2..=beside + steps {
        graph.entries[v].predecessors = vec![v - 1];
    }
    (graph, ends)
}

/// So many times of at least 1 that total just this.
pub fn times_of_total(random: &mut Random, nodes: usize, total: usize) -> Vec<usize> {
    let mut times = vec![1; nodes];
    let mut left = total - nodes;
    while left > 0 {
        let some = random.within(1..=left);
        times[random.within(0..=nodes - 1)] += some;
        left -= some;
    }
    times
}

fn words(lines: &[Vec<usize>]) -> Vec<String> {
    lines.iter().flatten().map(usize::to_string).collect()
}

/// The text with an entry a line and a blank between two numerals.
pub fn in_lines(graph: &Graph) -> Vec<u8> {
    of_lines(&graph.lines())
}

fn of_lines(lines: &[Vec<usize>]) -> Vec<u8> {
    let line = |numbers: &Vec<usize>| numbers.iter().map(usize::to_string).collect::<Vec<_>>().join(" ") + "\n";
    lines.iter().map(line).collect::<String>().into_bytes()
}

/// The text in columns and with a comment, as the files of the format's own collection are.
pub fn in_columns(graph: &Graph) -> Vec<u8> {
    let line = |numbers: Vec<usize>| numbers.iter().map(|number| format!("{number:>11}")).collect::<String>() + "\r\n";
    let lines: String = graph.lines().into_iter().map(line).collect();
    format!("{lines}#  Standard Task Graph\r\n#  Tasks : {}\r\n# 1 0 0\r\n", graph.count()).into_bytes()
}

/// The numerals with any blanks between and around them, leading zeros, and a comment, or only some of these.
pub fn scattered<W: AsRef<[u8]>>(random: &mut Random, words: &[W]) -> Vec<u8> {
    let zeros = *random.pick(&[0, 0, 1, 7]);
    let blanks = *random.pick(&[b" ", b"\t", b"\r", b"\n", BLANKS]);
    let most = *random.pick(&[1, 1, 3, 12]);
    let mut text = Vec::new();
    let gap = |random: &mut Random, least| {
        let length = random.within(least..=most);
        (0..length).map(|_| *random.pick(blanks)).collect::<Vec<u8>>()
    };
    text.extend(gap(random, 0));
    for (place, word) in words.iter().enumerate() {
        text.extend(gap(random, usize::from(place > 0)));
        text.extend(vec![b'0'; random.within(0..=zeros)]);
        text.extend(word.as_ref());
    }
    text.extend(gap(random, 0));
    text.extend(comment(random));
    text
}

/// Nothing, or a `#` and any bytes.
fn comment(random: &mut Random) -> Vec<u8> {
    let length = *random.pick(&[0, 1, 8, 60]);
    let any = random.bytes(length);
    let told = *random.pick(&["#", "#1 2 3", "# a graph\n", "##\n7\n#", "#-1\0"]);
    match random.within(0..=2) {
        0 => Vec::new(),
        1 => told.into(),
        _ => [b"#", &any[..]].concat(),
    }
}

/// The text of a graph in one of the layouts.
pub fn laid_out(random: &mut Random, graph: &Graph) -> Vec<u8> {
    match random.within(0..=3) {
        0 => in_lines(graph),
        1 => in_columns(graph),
        _ => scattered(random, &graph.words()),
    }
}

/// Texts that are not of the format, each by one fault in a text that else says the graph.
pub fn not_of_format(random: &mut Random, graph: &Graph) -> Vec<Vec<u8>> {
    let lines = graph.lines();
    let mut all: Vec<Vec<u8>> = wrong_lines(graph).iter().map(|lines| of_lines(lines)).collect();
    all.extend(wrong_words(random, &words(&lines)));
    all.extend(wrong_bytes(random, &in_lines(graph)));
    all.extend(cut_short(&words(&lines)));
    all
}

/// An entry's number wrong, a dummy with a time, a node without one, another count, entries missing, twice and too many.
fn wrong_lines(graph: &Graph) -> Vec<Vec<Vec<usize>>> {
    let lines = graph.lines();
    let (count, last) = (graph.count(), graph.entries.len());
    let mut all = Vec::new();
    let mut set = |line: usize, place: usize, value: usize| {
        let mut wrong = lines.clone();
        wrong[line][place] = value;
        all.push(wrong);
    };
    for v in 0..last {
        for number in [0, v.saturating_sub(1), v + 1, v + 256, last, LARGEST] {
            if number != v {
                set(v + 1, NUMBER, number);
            }
        }
        let dummy = v == 0 || v == last - 1;
        let times: &[usize] = if dummy { &[1, 2, 256, LARGEST] } else { &[0] };
        times.iter().for_each(|&time| set(v + 1, TIME, time));
    }
    for number in [0, 1, count.saturating_sub(1), count + 1, count + 2, count + 256, 32, 33, LARGEST - 1, LARGEST] {
        if number != count {
            set(0, 0, number);
        }
    }
    for v in 1..=last {
        let mut missing = lines.clone();
        let line = missing.remove(v);
        all.push(missing);
        let mut twice = lines.clone();
        twice.insert(v, line);
        all.push(twice);
    }
    for behind in [vec![0], vec![last], vec![last, 0, 0], vec![last, 1, 1, 1], lines[last].clone(), vec![LARGEST]] {
        all.push([&lines[..], &[behind]].concat());
    }
    all
}

/// A numeral too large, with something else beside its digits, or with something else in place of them.
fn wrong_words(random: &mut Random, words: &[String]) -> Vec<Vec<u8>> {
    let mut all = Vec::new();
    let mut set = |random: &mut Random, made: &dyn Fn(&str) -> String| {
        let at = random.within(0..=words.len() - 1);
        let mut wrong = words.to_vec();
        wrong[at] = made(&words[at]);
        all.push(wrong.join(" ").into_bytes());
        all.push(scattered(random, &wrong));
    };
    let larger = [LARGEST + 1, 1 << 17, 1 << 20, 1 << 32, 1 << 48].map(|more| more as u128);
    for more in larger.into_iter().chain([1 << 64, 1 << 100]) {
        set(random, &|word| (word.parse::<u128>().expect("a numeral") + more).to_string());
    }
    for digits in ["65536", "65540", "65600", "66000", "70000", "99999", "100000", "00065536", "4294967296"] {
        set(random, &|_| digits.into());
    }
    for zeros in [10, 300] {
        set(random, &|_| format!("1{}", "0".repeat(zeros)));
        set(random, &|word| format!("{word}{}65536", "0".repeat(zeros)));
        set(random, &|_| "9".repeat(zeros));
    }
    for before in ["-", "+", "0x", "x", ".", ",", "'", "$", "_", "\0", "\u{b}", "\u{c}", "\u{feff}", "\u{a0}"] {
        set(random, &|word| format!("{before}{word}"));
        set(random, &|word| format!("{word}{before}"));
        set(random, &|word| format!("{word} {before} "));
    }
    for strange in ["one", "\u{661}", "\u{ff11}", "\u{b2}", "1e0", "1.0", "0b1", "1_0", "1,0", "-0", "NaN", "--"] {
        set(random, &|_| strange.into());
    }
    all
}

/// Each byte that is no digit, blank or `#`, at a place of the text: put in, and in place of another.
fn wrong_bytes(random: &mut Random, text: &[u8]) -> Vec<Vec<u8>> {
    let allowed = |byte: &u8| byte.is_ascii_digit() || BLANKS.contains(byte) || *byte == b'#';
    let mut all = Vec::new();
    for byte in (0..=u8::MAX).filter(|byte| !allowed(byte)) {
        let mut longer = text.to_vec();
        longer.insert(random.within(0..=text.len()), byte);
        let mut changed = text.to_vec();
        changed[random.within(0..=text.len() - 1)] = byte;
        all.extend([longer, changed]);
    }
    all
}

/// The text that ends before some numeral, at the text's own end or at a `#`; the first of them are empty.
fn cut_short(words: &[String]) -> Vec<Vec<u8>> {
    let mut all = vec![b" \t\r\n".to_vec(), b"\n# 1 0 0 0 1 1 0 2 0 0\n".to_vec()];
    for at in 0..words.len() {
        let (told, rest) = words.split_at(at);
        all.push(told.join(" ").into_bytes());
        all.push(format!("{}#{}", told.join(" "), rest.join(" ")).into_bytes());
    }
    all
}

/// Graphs of the same entries in which one has a predecessor that is not below it.
pub fn not_below(random: &mut Random, graph: &Graph) -> Vec<Graph> {
    let last = graph.entries.len() - 1;
    let mut all = Vec::new();
    for v in 0..=last {
        for number in [v, v + 1, random.within(v..=LARGEST), last.max(v), last + 1, v + 32, v + 256, LARGEST] {
            let mut wrong = graph.clone();
            let predecessors = &mut wrong.entries[v].predecessors;
            predecessors.insert(random.within(0..=predecessors.len()), number);
            all.push(wrong);
        }
    }
    all
}

/// Changes a number of the lines, a predecessor more often than others, or leaves one out, puts one in, or moves a line.
fn damage_lines(random: &mut Random, lines: &mut Vec<Vec<usize>>) {
    let (line, other) = (random.within(0..=lines.len() - 1), random.within(0..=lines.len() - 1));
    let length = lines[line].len();
    let first = if length > PREDECESSORS && !random.once_in(3) { PREDECESSORS } else { 0 };
    let place = random.within(first..=length.max(1) - 1);
    let (any, near) = (random.skewed(0..=LARGEST), random.within(0..=lines.len()));
    let value = *random.pick(&[0, 1, 2, 32, 33, LARGEST, LARGEST + 1, any, near, near, near]);
    match random.within(0..=9) {
        0 => lines.swap(line, other),
        1 => lines.insert(other, lines[line].clone()),
        2 => lines[line].insert(place, value),
        _ if length == 0 => {}
        3 => drop(lines[line].remove(place)),
        _ => lines[line][place] = value,
    }
}

/// Changes a byte of the text, a digit or a blank more often than not to another, or leaves some out, puts some in, or
/// moves some.
fn damage_text(random: &mut Random, text: &mut Vec<u8>) {
    let Some(last) = text.len().checked_sub(1) else { return };
    let at = random.within(0..=last);
    let some = (last + 1 - at).min(random.within(1..=12));
    let digit = b'0' + random.within(0..=9) as u8;
    let (blank, any) = (*random.pick(BLANKS), random.word() as u8);
    let byte = *random.pick(&[digit, digit, blank, blank, b'#', b'-', any]);
    match random.within(0..=9) {
        0 => text.truncate(at),
        1 => text[at] ^= 1 << random.within(0..=7),
        2 => text.insert(at, byte),
        3 => drop(text.remove(at)),
        4 => drop(text.drain(at..at + some)),
        5 => {
            let moved: Vec<u8> = text.drain(at..at + some).collect();
            let to = random.within(0..=text.len());
            text.splice(to..to, moved);
        }
        6 => text[at] = byte,
        _ => text[at] = if BLANKS.contains(&text[at]) { blank } else { digit },
    }
}

/// The text that lines say in some layout, with some damage to the lines, to the text, or to both.
pub fn damaged(random: &mut Random, graph: &Graph) -> Vec<u8> {
    let mut lines = graph.lines();
    let of_text = random.within(0..=2);
    for _ in 0..random.within(usize::from(of_text == 0)..=2) {
        damage_lines(random, &mut lines);
    }
    let mut text = if random.once_in(2) { of_lines(&lines) } else { scattered(random, &words(&lines)) };
    for _ in 0..of_text {
        damage_text(random, &mut text);
    }
    text
}

#[cfg(test)]
mod tests {
    use super::*;
    use crate::reference::answers::Cause;
    use crate::reference::import::{import, Terms};

    const TERMS: Terms = Terms { level: 1, deadline: 50, percentage: 120 };

    fn refused(text: &[u8]) -> Option<Cause> {
        import(text, TERMS, 140).err().map(|refusal| refusal.cause)
    }

    #[test]
    fn every_layout_says_the_graph() {
        let mut random = Random::of_test("layouts");
        for _ in 0..1_000 {
            let nodes = random.skewed(1..=32);
            let graph = random_graph(&mut random, nodes, 100);
            let expected = import(&in_lines(&graph), TERMS, 140);
            assert!(expected.is_ok(), "{graph:?}");
            assert_eq!(import(&in_columns(&graph), TERMS, 140), expected);
            let text = scattered(&mut random, &graph.words());
            assert_eq!(import(&text, TERMS, 140), expected, "{text:?}");
        }
    }

    #[test]
    fn each_fault_has_its_refusal() {
        let mut random = Random::of_test("faults of texts");
        for nodes in [0, 1, 2, 5, 32] {
            let graph = random_graph(&mut random, nodes, 100);
            for text in not_of_format(&mut random, &graph) {
                assert_eq!(refused(&text), Some(Cause::Text), "{}", String::from_utf8_lossy(&text));
            }
            for wrong in not_below(&mut random, &graph) {
                assert_eq!(refused(&in_lines(&wrong)), Some(Cause::Graph), "{wrong:?}");
            }
        }
    }

    #[test]
    fn times_total_what_they_should() {
        let mut random = Random::of_test("totals of times");
        for (nodes, total) in [(1, 1), (3, 3), (3, 10_000), (32, 10_001)] {
            let times = times_of_total(&mut random, nodes, total);
            assert_eq!((times.len(), times.iter().sum()), (nodes, total));
            assert!(times.iter().all(|&time| time >= 1));
        }
    }
}
