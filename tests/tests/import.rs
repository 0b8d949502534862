//! The proved import beside the independent one: the answer and every byte of the buffer agree, and what is imported is
//! read, planned and run.
use dibwunek_tests::harness::agreement::{plans_agree, starts_agree};
use dibwunek_tests::harness::counts::{hold, Counts};
use dibwunek_tests::harness::proved::dispatching::Proved;
use dibwunek_tests::harness::proved::{self, importing, starting, FIRST_MASK};
use dibwunek_tests::harness::replay;
use dibwunek_tests::makers::crafts::{Crafted, Kind};
use dibwunek_tests::makers::graphs::{
    damaged, in_columns, in_lines, laid_out, not_below, not_of_format, random_graph, rounds_then_row, scattered,
    times_of_total, Entry, Graph, LARGEST,
};
use dibwunek_tests::makers::lengths::Budget;
use dibwunek_tests::makers::random::Random;
use dibwunek_tests::makers::sheets::Draft;
use dibwunek_tests::makers::world::{story, Manner, Pace};
use dibwunek_tests::reference::answers::Reply;
use dibwunek_tests::reference::import::{import, import_into, Imported, Terms, HEAD};
use dibwunek_tests::reference::planner::{self, least_deadline, Pair, TASK_BYTES};
use dibwunek_tests::reference::reader::{Figures, Form, Level, Sheet, NODES};

/// Levels, percentages and deadlines, right and wrong, some of which are right in their low bytes only.
const LEVELS: [u32; 10] = [0, 1, 2, 3, 16, 17, 255, 256, 257, u32::MAX];
const WRONG_PERCENTAGES: [u32; 8] = [0, 1, 99, 401, 500, 65_636, 65_736, u32::MAX];
const DEADLINES: [u32; 9] = [0, 1, 2, 10_000, 10_001, 65_535, 65_536, 65_537, u32::MAX];

/// The largest figure of a record that import writes.
const LIMIT: usize = Form::Narrow.limit() as usize;

/// A buffer with room for every record of up to 32 nodes.
const ROOMY: usize = HEAD + 4 * NODES;

fn high(percentage: u32) -> Terms {
    Terms { level: 1, deadline: 150, percentage }
}

const LOW: Terms = Terms { level: 0, deadline: 150, percentage: 100 };

/// The most that the largest time of a graph of 32 nodes may be, so that no percentage takes a figure past 10,000.
const SMALL: usize = LIMIT / NODES / 4;

fn room(graph: &Graph) -> usize {
    HEAD + 4 * graph.count()
}

/// Compares the two importers text by text, and counts the answers and the tight cases.
struct Comparison {
    random: Random,
    counts: Counts,
}

impl Comparison {
    fn new(test: &'static str) -> Comparison {
        Comparison { random: Random::of_test(test), counts: Counts::new(test) }
    }

    /// The answer to a text, terms and a buffer of random bytes. Those behind it must stay.
    fn check(&mut self, text: &[u8], terms: Terms, length: usize) -> Reply {
        let on = || on(text, terms, length);
        let before = self.random.bytes(length + 8);
        let (mut after, mut expected) = (before.clone(), before.clone());
        let reply = importing::import(text, terms, &mut after[..length]);
        let (answer, left) = import_into(text, terms, &before[..length]);
        expected[..length].copy_from_slice(&left);
        hold(&(reply, &after), &(answer, &expected), on);
        self.counts.add(reply.number());
        if let Ok(imported) = import(text, terms, length) {
            keeps_its_promises(&after, terms, on);
            count_imported(&imported, terms, &mut self.counts);
        }
        reply
    }

    /// The same, where the answer is known: 0, or the number of a refusal.
    fn expect(&mut self, number: u8, text: &[u8], terms: Terms, length: usize) {
        let expected = if number == 0 { Reply::Done } else { Reply::Refused(number, 255) };
        hold(&self.check(text, terms, length), &expected, || on(text, terms, length));
    }
}

fn on(text: &[u8], terms: Terms, length: usize) -> String {
    format!("{terms:?}, {length} bytes of buffer, the text {}", String::from_utf8_lossy(text))
}

/// What is promised of every record that import writes.
fn keeps_its_promises(record: &[u8], terms: Terms, on: impl Fn() -> String) {
    let figure = |place: usize| i32::from(u16::from_le_bytes([record[place], record[place + 1]]));
    let [d, cn, co, ln, lo] = [2, 4, 6, 8, 10].map(figure);
    let masks = record[HEAD..].chunks_exact(4).map(|b| u32::from_le_bytes([b[0], b[1], b[2], b[3]]));
    let k = usize::from(record[1]);
    assert!((1..=NODES).contains(&k) && masks.take(k).enumerate().all(|(v, mask)| mask >> v == 0), "{}", on());
    assert!([d, cn, co, ln, lo].into_iter().all(|figure| (1..=LIMIT as i32).contains(&figure)), "{}", on());
    assert!(u32::from(record[0]) == terms.level && d as u32 == terms.deadline, "{}", on());
    assert!(ln <= cn && lo <= co && cn <= co && ln <= lo && co - cn >= lo - ln, "{}", on());
    assert!(terms.level == 1 || (cn == co && ln == lo), "{}", on());
}

/// Counts the tight cases among the imported tasks.
fn count_imported(imported: &Imported, terms: Terms, counts: &mut Counts) {
    let Figures { d, cn, co, ln, lo } = imported.task.figures;
    if co > cn && co - cn == lo - ln {
        counts.add("work grew just as the span did");
    }
    if co - cn > lo - ln {
        counts.add("work grew by more than the span");
    }
    for (name, figure) in [("D", d), ("CN", cn), ("CO", co), ("LN", ln), ("LO", lo)] {
        if figure as usize == LIMIT {
            counts.add(format!("{name} of 10,000"));
        }
    }
    if imported.nominal.iter().any(|time| time * terms.percentage % 100 != 0) {
        counts.add("a time rounded up");
    }
}

/// Counts what is particular in how a graph lists its predecessors.
fn count_lists(graph: &Graph, counts: &mut Counts) {
    for Entry { predecessors, .. } in graph.nodes() {
        let mut sorted = predecessors.clone();
        sorted.sort();
        sorted.dedup();
        if sorted.len() < predecessors.len() {
            counts.add("nodes with a predecessor repeated");
        }
        if sorted.len() > 1 && sorted[0] == 0 {
            counts.add("nodes with predecessor 0 beside others");
        }
        if predecessors.is_empty() {
            counts.add("nodes with no predecessor listed");
        }
        if predecessors.windows(2).any(|pair| pair[0] > pair[1]) {
            counts.add("nodes with predecessors out of order");
        }
    }
}

/// Terms that are mostly lawful.
fn any_terms(random: &mut Random) -> Terms {
    let percentage = random.skewed(100..=400) as u32;
    let deadline = random.skewed(1..=LIMIT) as u32;
    let terms = match random.within(0..=2) {
        0 => Terms { level: 0, deadline, percentage: 100 },
        _ => Terms { level: 1, deadline, percentage },
    };
    match random.within(0..=19) {
        0 => Terms { level: *random.pick(&LEVELS), ..terms },
        1 => Terms { deadline: *random.pick(&DEADLINES), ..terms },
        2 => Terms { percentage: *random.pick(&WRONG_PERCENTAGES), ..terms },
        _ => terms,
    }
}

/// A buffer's length that is mostly enough for a graph.
fn near(random: &mut Random, graph: &Graph) -> usize {
    let needed = room(graph);
    match random.within(0..=19) {
        0 => needed - 1,
        1 => random.within(0..=needed),
        2..=4 => needed + random.within(1..=40),
        5 => ROOMY,
        _ => needed,
    }
}

fn any_graph(random: &mut Random) -> Graph {
    let nodes = random.skewed(1..=NODES);
    let largest = *random.pick(&[1, 3, 20, SMALL, SMALL, 100, 300, 2_500, LARGEST]);
    random_graph(random, nodes, largest)
}

const TIGHT: [&str; 3] = ["work grew just as the span did", "work grew by more than the span", "a time rounded up"];
const LISTS: [&str; 4] = [
    "nodes with a predecessor repeated",
    "nodes with predecessor 0 beside others",
    "nodes with no predecessor listed",
    "nodes with predecessors out of order",
];

/// The record says what the graph does, whatever the layout of its text.
#[test]
fn random_graphs_in_every_layout() {
    let mut random = Random::of_test("imported graphs");
    let mut comparison = Comparison::new("random graphs in every layout");
    for _ in 0..6_000 {
        let graph = any_graph(&mut random);
        count_lists(&graph, &mut comparison.counts);
        let (terms, length) = (any_terms(&mut random), near(&mut random, &graph));
        let reply = comparison.check(&in_lines(&graph), terms, length);
        assert_eq!(comparison.check(&in_columns(&graph), terms, length), reply, "{graph:?}");
        let text = scattered(&mut random, &graph.words());
        assert_eq!(comparison.check(&text, terms, length), reply, "{graph:?}");
    }
    comparison.counts.ask(LISTS.into_iter().chain(TIGHT), 200);
    comparison.counts.close(["0", "17", "19"], 200);
}

/// Case by hand: two nodes before a third, and a fourth that stands alone. Percentage 150 makes 5, 6, 8 and 2 of 3, 4, 5
/// and 1; the longest chain is by way of node 1.
#[test]
fn an_import_by_hand() {
    let text = b"4\t# four nodes follow\n";
    assert_eq!(importing::import(text, high(150), &mut [7; 28]), Reply::Refused(17, 255), "they stand in a comment");
    let text = b"4\r\n 0 0 0\r\n 1 3 1 0\r\n 2 4 1 0\r\n 3 5 3 2 1 2\r\n 4 01 0\r\n 5 0 2 3 4\r\n# 6 0 0";
    let figures = |terms: Terms, four: [u8; 4]| {
        let [cn, co, ln, lo] = four;
        let head = [terms.level as u8, 4, terms.deadline as u8, 0, cn, 0, co, 0, ln, 0, lo, 0];
        [&head[..], &[0; 8], &[3, 0, 0, 0], &[0; 4], &[7; 3]].concat()
    };
    for (terms, four) in [(high(150), [13, 21, 9, 14]), (high(100), [13, 13, 9, 9]), (LOW, [13, 13, 9, 9])] {
        let mut buffer = [7; 31];
        assert_eq!(importing::import(text, terms, &mut buffer), Reply::Done);
        assert_eq!(buffer[..], figures(terms, four));
    }
    let mut short = [7; 27];
    assert_eq!(importing::import(text, LOW, &mut short), Reply::Refused(17, 255));
    assert_eq!(short, [7; 27]);
}

#[test]
fn every_level_percentage_and_deadline() {
    let mut random = Random::of_test("terms of imports");
    let mut comparison = Comparison::new("every level, percentage and deadline");
    let random_graphs = [1, 7, 32].map(|nodes| random_graph(&mut random, nodes, SMALL));
    for graph in random_graphs.into_iter().chain([Graph::side_by_side(&[7, 77, 49])]) {
        let text = laid_out(&mut random, &graph);
        for percentage in (100..=400).chain(WRONG_PERCENTAGES) {
            let lawful = |level| match level {
                0 => percentage == 100,
                1 => (100..=400).contains(&percentage),
                _ => false,
            };
            for (level, deadline) in LEVELS.into_iter().flat_map(|level| DEADLINES.map(|d| (level, d))) {
                let terms = Terms { level, deadline, percentage };
                let number = match (lawful(level), (1..=10_000).contains(&deadline)) {
                    (false, _) => 17,
                    (true, false) => 19,
                    (true, true) => 0,
                };
                comparison.expect(number, &text, terms, room(&graph));
            }
        }
    }
    comparison.counts.ask(TIGHT, 100);
    comparison.counts.close(["0", "17", "19", "D of 10,000"], 500);
}

#[test]
fn every_length_of_a_record_buffer() {
    let mut random = Random::of_test("record buffers");
    let mut comparison = Comparison::new("every length of a record buffer");
    for nodes in (1..=NODES).chain([1, 2, 3, 32]) {
        let graph = random_graph(&mut random, nodes, SMALL);
        let text = laid_out(&mut random, &graph);
        for length in 0..=room(&graph) + 16 {
            let number = if length < room(&graph) { 17 } else { 0 };
            comparison.expect(number, &text, high(250), length);
        }
    }
    for nodes in [0, 33, 40, 300] {
        let graph = random_graph(&mut random, nodes, SMALL);
        let text = laid_out(&mut random, &graph);
        for length in (0..=20).chain(room(&graph).saturating_sub(150)..=room(&graph) + 16) {
            let number = if length < room(&graph) { 17 } else { 18 };
            comparison.expect(number, &text, high(250), length);
        }
    }
    comparison.counts.close(["0", "17", "18"], 50);
}

/// The four figures that are sums and chains at 9,999 and 10,000, and one of them at least at 10,001.
#[test]
fn figures_at_the_limit_and_past_it() {
    let mut random = Random::of_test("figures at the limit");
    let mut comparison = Comparison::new("figures at the limit and past it");
    for percentage in (100..=400).step_by(4).chain([101, 199, 333, 399]).cycle().take(1_200) {
        let nodes = random.skewed(1..=NODES);
        for total in [LIMIT - 1, LIMIT, LIMIT + 1] {
            let Some(times) = some_times(&mut random, nodes, total, percentage) else { continue };
            let graphs = [Graph::side_by_side(&times), Graph::in_a_row(&times), with_edges(&mut random, &times)];
            for graph in graphs {
                let text = laid_out(&mut random, &graph);
                let number = if total <= LIMIT { 0 } else { 19 };
                let terms = high(percentage as u32);
                comparison.expect(number, &text, terms, room(&graph));
                if percentage == 100 {
                    comparison.expect(number, &text, LOW, room(&graph));
                }
            }
        }
    }
    comparison.counts.ask(TIGHT, 100);
    comparison.counts.close(["19", "CN of 10,000", "CO of 10,000", "LN of 10,000", "LO of 10,000"], 10);
}

/// Times whose overload times total just this, where some do.
fn some_times(random: &mut Random, nodes: usize, total: usize, percentage: usize) -> Option<Vec<usize>> {
    let overload = |times: &[usize]| times.iter().map(|time| (time * percentage).div_ceil(100)).sum::<usize>();
    let about = total * 100 / percentage;
    let mut tried = (0..200).map(|_| {
        let nominal = random.within((about - nodes).max(nodes)..=about);
        times_of_total(random, nodes, nominal)
    });
    tried.find(|times| overload(times) == total)
}

/// Nodes with these times and random edges.
fn with_edges(random: &mut Random, times: &[usize]) -> Graph {
    let mut graph = random_graph(random, times.len(), 1);
    graph.entries[1..].iter_mut().zip(times).for_each(|(entry, &time)| entry.time = time);
    graph
}

#[test]
fn texts_not_of_the_format() {
    let mut random = Random::of_test("texts not of the format");
    let mut comparison = Comparison::new("texts not of the format");
    for nodes in [0, 1, 1, 2, 3, 5, 8, 32, 33] {
        let graph = random_graph(&mut random, nodes, SMALL);
        for text in not_of_format(&mut random, &graph) {
            comparison.expect(17, &text, high(130), 1_000);
        }
    }
    comparison.counts.close(["17"], 5_000);
}

/// Each byte of a text in turn becomes each other byte, and each byte is put in at each place.
#[test]
fn every_byte_at_every_place() {
    let mut comparison = Comparison::new("every byte at every place");
    let text = b"2\n0 0 0\n1 10 1 0\n2 3 2 01 1\n3 0 1 2\n#1";
    comparison.expect(0, text, high(115), 20);
    for at in 0..=text.len() {
        for byte in 0..=u8::MAX {
            let longer = [&text[..at], &[byte], &text[at..]].concat();
            comparison.check(&longer, high(115), 40);
            if at < text.len() {
                let changed = [&text[..at], &[byte], &text[at + 1..]].concat();
                comparison.check(&changed, high(115), 40);
            }
        }
    }
    comparison.counts.close(["0", "17", "18"], 20);
}

#[test]
fn texts_cut_at_every_length() {
    let mut random = Random::of_test("cut texts");
    let mut comparison = Comparison::new("texts cut at every length");
    for nodes in [1, 2, 5, 12, 32] {
        for _ in 0..4 {
            let graph = random_graph(&mut random, nodes, SMALL);
            let text = laid_out(&mut random, &graph);
            for length in 0..=text.len() {
                comparison.check(&text[..length], high(400), ROOMY);
                comparison.check(&text[text.len() - length..], high(400), ROOMY);
            }
        }
    }
    comparison.counts.close(["0", "17"], 20);
}

/// Calls the function with each list of so many numbers from 0 to 2.
fn each_list(length: usize, tried: &mut dyn FnMut(&[u8])) {
    let mut list = vec![0; length];
    loop {
        tried(&list);
        let Some(at) = list.iter().position(|&number| number < 2) else { return };
        list[..at].fill(0);
        list[at] += 1;
    }
}

/// All lists of at most twelve numerals from 0 to 2.
#[test]
fn every_short_list_of_small_numerals() {
    let mut comparison = Comparison::new("every short list of small numerals");
    for length in 0..=12 {
        each_list(length, &mut |numbers| {
            let text: Vec<u8> = numbers.iter().flat_map(|number| [b'0' + number, b' ']).collect();
            comparison.check(&text, high(150), 20);
        });
    }
    comparison.counts.close(["0", "17", "18"], 20);
}

#[test]
fn predecessors_not_below_their_entry() {
    let mut random = Random::of_test("predecessors not below");
    let mut comparison = Comparison::new("predecessors not below their entry");
    for nodes in (1..=NODES).chain([1, 2, 3, 31, 32]) {
        let graph = random_graph(&mut random, nodes, SMALL);
        for wrong in not_below(&mut random, &graph) {
            let text = laid_out(&mut random, &wrong);
            comparison.expect(18, &text, high(300), room(&graph));
        }
    }
    comparison.counts.close(["18"], 3_000);
}

#[test]
fn no_node_and_more_than_32() {
    let mut random = Random::of_test("counts of nodes");
    let mut comparison = Comparison::new("no node and more than 32");
    for nodes in (0..=70).chain([255, 256, 257, 288, 1_000]) {
        for _ in 0..8 {
            let graph = random_graph(&mut random, nodes, 20);
            let text = laid_out(&mut random, &graph);
            let number = if (1..=NODES).contains(&nodes) { 0 } else { 18 };
            comparison.expect(number, &text, high(200), room(&graph));
        }
    }
    comparison.counts.close(["0", "18"], 100);
}

/// The last entry of the longest graph has the number 65,535; one node more, and no numeral says the last number.
#[test]
fn the_longest_texts() {
    let mut comparison = Comparison::new("the longest texts");
    let longest = Graph::side_by_side(&vec![1; LARGEST - 1]);
    let needed = room(&longest);
    let text = in_lines(&longest);
    comparison.expect(18, &text, high(100), needed);
    comparison.expect(17, &text, high(100), needed - 1);
    comparison.expect(17, &text, high(100), ROOMY);
    comparison.expect(17, &text[..text.len() - 6], high(100), needed);
    let longer = in_lines(&Graph::side_by_side(&vec![1; LARGEST]));
    comparison.expect(17, &longer, high(100), needed + 4);

    let mut graph = Graph::side_by_side(&[5, 6]);
    graph.entries[2].predecessors = vec![1; LARGEST];
    graph.entries[3].predecessors = vec![2; LARGEST];
    comparison.expect(0, &in_lines(&graph), high(100), 20);
    graph.entries[2].predecessors[LARGEST - 1] = 2;
    comparison.expect(18, &in_lines(&graph), high(100), 20);
    graph.entries[2].predecessors.push(1);
    comparison.expect(17, &in_lines(&graph), high(100), 20);

    let many = 100_000;
    let text = |zeros: &str, blanks: &str| format!("1{blanks}0 0 0 1 {zeros}7 1 0 2 0 {zeros}{blanks}#").into_bytes();
    comparison.expect(0, &text(&"0".repeat(many), &" ".repeat(many)), high(100), 16);
    comparison.expect(0, &text(&"0".repeat(many), &"\r\n".repeat(many)), high(100), 16);
    comparison.expect(17, &text(&"9".repeat(many), " "), high(100), 16);
    comparison.expect(17, &text(&"10".repeat(many), " "), high(100), 16);
    comparison.counts.close(["0", "17", "18"], 2);
}

#[test]
fn damaged_texts() {
    let mut random = Random::of_test("damage to texts");
    let mut comparison = Comparison::new("damaged texts");
    for _ in 0..60_000 {
        let nodes = *random.pick(&[1, 1, 2, 2, 3, 3, 4, 5, 8, 32]);
        let largest = *random.pick(&[1, 3, SMALL, LARGEST]);
        let graph = random_graph(&mut random, nodes, largest);
        let text = damaged(&mut random, &graph);
        let (terms, length) = (any_terms(&mut random), near(&mut random, &graph));
        comparison.check(&text, terms, length);
    }
    comparison.counts.close(["0", "17", "18", "19"], 300);
}

/// A figure past its range, then with it a predecessor not below its entry or a wrong count of nodes, then with these a
/// text, terms or a buffer that 17 refuses.
#[test]
fn faults_of_two_kinds_show_the_lower_number() {
    let mut random = Random::of_test("faults of two kinds");
    let mut comparison = Comparison::new("faults of two kinds show the lower number");
    for _ in 0..400 {
        let nodes = random.skewed(1..=NODES);
        let mut graph = random_graph(&mut random, nodes, SMALL);
        let mut terms = high(random.within(100..=400) as u32);
        if random.once_in(3) {
            terms.deadline = *random.pick(&[0, 10_001, 65_536, u32::MAX]);
        } else {
            graph.entries[random.within(1..=nodes)].time = random.skewed(LIMIT + 1..=LARGEST);
        }
        let text = laid_out(&mut random, &graph);
        comparison.expect(19, &text, terms, room(&graph));
        comparison.expect(17, &text, wrong_terms(&mut random, terms), room(&graph));

        if random.once_in(4) {
            let nodes = *random.pick(&[0, 33, 34, 64]);
            graph = random_graph(&mut random, nodes, LARGEST);
        } else {
            let graphs = not_below(&mut random, &graph);
            graph = random.pick(&graphs).clone();
        }
        let length = room(&graph);
        let text = laid_out(&mut random, &graph);
        comparison.expect(18, &text, terms, length);
        comparison.expect(17, &text, wrong_terms(&mut random, terms), length);
        comparison.expect(17, &text, terms, random.within(0..=length - 1));
        let texts = not_of_format(&mut random, &graph);
        let wrong: &Vec<u8> = random.pick(&texts);
        comparison.expect(17, wrong, terms, length);
    }
    comparison.counts.close(["17", "18", "19"], 400);
}

fn wrong_terms(random: &mut Random, terms: Terms) -> Terms {
    match random.within(0..=2) {
        0 => Terms { level: *random.pick(&LEVELS[2..]), ..terms },
        1 => Terms { percentage: *random.pick(&WRONG_PERCENTAGES), ..terms },
        _ => Terms { level: 0, percentage: random.within(101..=400) as u32, ..terms },
    }
}

/// A graph, terms whose D is near the least with which so many processors do, and the task that comes of them by the
/// independent importer.
fn for_sheet(random: &mut Random, most: usize, largest: usize) -> (Graph, Terms, Imported) {
    let nodes = random.within(1..=NODES);
    let graph = random_graph(random, nodes, largest);
    let percentage = random.skewed(100..=400) as u32;
    let terms = *random.pick(&[LOW, high(percentage), high(percentage)]);
    let task = import(&in_lines(&graph), terms, ROOMY).expect("its times are small").task;
    let Figures { cn, co, ln, .. } = task.figures;
    let critical = random.within(1..=most);
    let pair = Pair { typical: random.within(1..=critical), critical };
    let least = match task.level {
        Level::Low => (ln + (cn - ln).div_ceil(critical as u32)) as usize,
        Level::High => least_deadline(task.figures, pair),
    };
    let near = *random.pick(&[least, least, least, least - 1, least + 1, least + 5]);
    let most = if random.once_in(4) { LIMIT } else { co as usize - 1 };
    let terms = Terms { deadline: near.min(most).max(1) as u32, ..terms };
    let imported = import(&in_lines(&graph), terms, ROOMY).expect("D is within its range");
    (graph, terms, imported)
}

/// The record that the proved import writes.
fn record_of(random: &mut Random, graph: &Graph, terms: Terms) -> Vec<u8> {
    let mut record = random.bytes(room(graph));
    let text = laid_out(random, graph);
    assert_eq!(importing::import(&text, terms, &mut record), Reply::Done, "{graph:?}");
    record
}

/// The fields in which the proved reader gives a task.
fn fields_of(imported: &Imported) -> Vec<u32> {
    let Figures { d, cn, co, ln, lo } = imported.task.figures;
    let level = u32::from(imported.task.level == Level::High);
    let head = [level, imported.task.masks.len() as u32, d, cn, ln, co, lo];
    [&head[..], &imported.task.masks].concat()
}

/// No sheet of imported records is refused with 1 to 5. One that is accepted has the tasks that were imported, and is
/// planned and started.
#[test]
fn imported_records_are_read_planned_and_started() {
    let mut random = Random::of_test("imported records");
    let mut counts = Counts::new("imported records are read, planned and started");
    for _ in 0..3_000 {
        let processors = *random.pick(&[2, 4, 8, 16, 64]);
        let count = *random.pick(&[1, 1, 1, 2, 3, 5]);
        let made: Vec<_> = (0..count).map(|_| for_sheet(&mut random, processors.min(8), SMALL)).collect();
        let records = made.iter().map(|(graph, terms, _)| record_of(&mut random, graph, *terms)).collect();
        let sheet = Draft { processors: processors as u8, records }.bytes();
        let (number, _) = proved::read(&sheet);
        assert!(matches!(number, 0 | 6), "{number}: {made:?}");
        let reply = plans_agree(&sheet, TASK_BYTES * count, &mut random);
        assert!(matches!(reply.number(), 0 | 6..=8), "{reply:?}: {made:?}");
        assert_eq!(starts_agree(&sheet), reply, "{made:?}");
        counts.add(format!("{} for {}", reply.number(), if count == 1 { "one task" } else { "some tasks" }));
        if number == 0 {
            let set = proved::task_set(&sheet);
            for (fields, (_, _, imported)) in set.tasks.iter().zip(&made) {
                assert_eq!(fields[..FIRST_MASK + imported.task.masks.len()], fields_of(imported), "{made:?}");
            }
        }
    }
    let names = ["0 for one task", "6 for one task", "7 for one task", "0 for some tasks", "8 for some tasks"];
    counts.close(names, 50);
}

/// A sheet of this task alone, with the fewest processors, where it is accepted.
fn alone(imported: &Imported) -> Option<(Sheet, Pair)> {
    let sheets = (1..=64).map(|processors| Sheet { processors, tasks: vec![imported.task.clone()] });
    let heavy = imported.task.figures.d < imported.task.figures.co;
    let mut planned = sheets.filter(|_| heavy).filter_map(|sheet| Some((planner::plan(&sheet).ok()?, sheet)));
    planned.next().map(|(plan, sheet)| (sheet, plan.tasks[0].shares))
}

/// A graph and terms for a task that is accepted when it is alone. Every second one lasts to the tick D.
fn for_job(random: &mut Random) -> (Graph, Terms, Imported) {
    if random.once_in(2) {
        return for_sheet(random, 6, 8);
    }
    let processors = random.within(2..=5);
    let (graph, ends) = rounds_then_row(random, processors);
    let terms = Terms { deadline: ends as u32, ..*random.pick(&[LOW, high(100)]) };
    let imported = import(&in_lines(&graph), terms, ROOMY).expect("its times are small");
    (graph, terms, imported)
}

/// A task that was imported is alone on a sheet, and its nodes run for the graph's times: nominal ones, and then
/// overload ones. They are just what the record's budgets allow.
#[test]
fn imported_jobs_end_by_their_deadlines() {
    let mut random = Random::of_test("imported jobs");
    let mut nominal_counts = Counts::new("imported jobs of nominal times");
    let mut overload_counts = Counts::new("imported jobs of overload times");
    let mut run = 0;
    while run < 400 {
        let (graph, terms, imported) = for_job(&mut random);
        let Some((sheet, shares)) = alone(&imported) else { continue };
        run += 1;
        let Imported { task, nominal, overload } = imported;
        let Figures { d, cn, co, ln, lo } = task.figures;
        assert_eq!(Budget::of(&task.masks, &nominal), Budget { work: cn, span: ln }, "{graph:?}");
        assert_eq!(Budget::of(&task.masks, &overload), Budget { work: co, span: lo }, "{graph:?}");
        let record = record_of(&mut random, &graph, terms);
        let bytes = Draft { processors: sheet.processors, records: vec![record] }.bytes();
        let (reply, fresh) = starting::start(&bytes);
        assert_eq!(reply, Reply::Done, "{graph:?}");
        let level = task.level;
        let crafted = [Crafted::of(task, nominal.clone(), overload.clone(), shares)];
        for (lengths, counts) in [(nominal, &mut nominal_counts), (overload, &mut overload_counts)] {
            let manner = Manner {
                ticks: d as usize,
                paces: vec![Pace::Eager],
                kinds: vec![vec![Kind::Given(lengths)]],
                first: vec![0],
                liars: vec![false],
                refused: false,
            };
            let story = story(&mut random, &sheet, &crafted, &manner);
            assert_eq!(story.sheet, bytes, "{graph:?}");
            replay::run(&Proved, fresh.clone(), &story, counts);
            counts.add(if level == Level::High { "high jobs" } else { "low jobs" });
        }
    }
    for counts in [&nominal_counts, &overload_counts] {
        assert_eq!(counts.of("high jobs that were due"), counts.of("high jobs"));
        let low = ["kept jobs that were due", "other low jobs that were due"].map(|name| counts.of(name));
        assert_eq!(low[0] + low[1], counts.of("low jobs"));
    }
    assert_eq!(nominal_counts.of("switched"), 0);
    let ended_in_d = ["of these ended in tick D", "kept jobs that ended in tick D"];
    nominal_counts.ask(ended_in_d, 50);
    nominal_counts.close(["high jobs", "low jobs", "nominal jobs that ended in tick V"], 50);
    overload_counts.ask(ended_in_d, 50);
    overload_counts.close(["high jobs", "low jobs", "switched"], 50);
}
