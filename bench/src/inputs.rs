//! What the calls are measured on: sheets, states and texts of `tests/`. All of it is fixed: every run has the same inputs.
use dibwunek_tests::harness::boundary::to_words;
use dibwunek_tests::makers::graphs::{Entry, Graph};
use dibwunek_tests::makers::sheets::{Draft, CASE_14};
use dibwunek_tests::reference::dispatcher::{self, start, Mode, State};
use dibwunek_tests::reference::import::HEAD;
use dibwunek_tests::reference::reader::{Figures, Form, Level, Sheet, Task};

/// A sheet and what follows from it.
pub struct Input {
    pub name: String,
    /// Whether it shows growth: then the calls are measured on states by value only.
    pub growth: bool,
    /// Whether Plan alone is measured.
    pub plan_only: bool,
    pub sheet: Vec<u8>,
    pub processors: usize,
    pub count: usize,
    /// Whether Start accepts the sheet. If not, only Plan and Start are measured.
    pub accepted: bool,
    /// The line of Start's state.
    pub fresh: Vec<u32>,
    /// The fresh state after a release of every task.
    pub alive: Vec<u32>,
    /// That state with every age one tick before its job's virtual deadline.
    pub late: Vec<u32>,
    /// The alive state in the critical mode, with the last node of each job left. Low tasks that are not kept have none.
    pub last: Vec<u32>,
    /// For each task its lowest running node.
    pub reports: Vec<u32>,
    /// For each task with a job in `last` its last node.
    pub last_reports: Vec<u32>,
    /// Ticks without a report that the alive state takes before it turns critical.
    pub ticks: u32,
}

/// A high task of k nodes. A typical share below `share` passes with no critical share, so the search for one runs to the
/// end; `share` and all above pass with themselves. With X = CN − LN, w and Y = D − LO, a = b passes from (X + w) / Y =
/// `share` on, and below it X exceeds Y·a.
fn high_task(k: u8, share: u32) -> Task {
    let figures = Figures { d: 150, cn: 100 * share - 40, co: 100 * share + 50, ln: 10, lo: 50 };
    Task { level: Level::High, form: Form::Narrow, figures, masks: (0..k).map(mask).collect() }
}

/// The task in the wide form, with figures so many times as large: the same pairs pass.
fn wide(task: Task, times: u32) -> Task {
    let Figures { d, cn, co, ln, lo } = task.figures;
    let [d, cn, co, ln, lo] = [d, cn, co, ln, lo].map(|figure| times * figure);
    Task { form: Form::Wide, figures: Figures { d, cn, co, ln, lo }, ..task }
}

/// n such tasks on m processors.
fn alike(m: u8, n: u8, task: Task) -> Vec<u8> {
    Draft::of(&Sheet { processors: m, tasks: vec![task; n.into()] }).bytes()
}

/// A high task with the shares (10, 34) and 15 low ones, of 32 nodes each, on 64 processors. The low tasks have the
/// shares 5, 4, 3, 2 in turn. In the critical mode 30 processors are left over, just enough for those with 2 and 3 and
/// three of the four with 4.
fn low_tasks() -> Vec<u8> {
    let task = |level, figures| Task { level, form: Form::Narrow, figures, masks: (0..32).map(mask).collect() };
    let low = |share: u32| {
        let c = 10 + 140 * share;
        task(Level::Low, Figures { d: 150, cn: c, co: c, ln: 10, lo: 10 })
    };
    let high = task(Level::High, Figures { d: 150, cn: 810, co: 1_290, ln: 10, lo: 50 });
    let tasks = [high].into_iter().chain([5, 4, 3, 2].into_iter().cycle().take(15).map(low)).collect();
    Draft::of(&Sheet { processors: 64, tasks }).bytes()
}

/// The first eight nodes wait for none; a later one waits for the eight before it.
fn mask(v: u8) -> u32 {
    if v < 8 {
        0
    } else {
        0xff << (v - 8)
    }
}

/// A state with all nodes ended of each job but the last, in the critical mode.
fn with_last_nodes(alive: &State) -> State {
    let mut state = State { mode: Mode::Critical, ..alive.clone() };
    for entry in state.entries.iter_mut().filter(|entry| entry.alive) {
        entry.alive = entry.stays();
        entry.ended[..usize::from(entry.nodes) - 1].fill(true);
    }
    state
}

/// The last node of a task whose job is alive, as a set.
fn last_node(entry: &dispatcher::Entry) -> u32 {
    u32::from(entry.alive) << entry.nodes.saturating_sub(1)
}

fn input(name: String, sheet: Vec<u8>) -> Input {
    let (processors, count) = (usize::from(sheet[0]), usize::from(sheet[1]));
    let started = start(&sheet);
    let accepted = started.is_ok();
    let fresh = started.unwrap_or_else(|_| State::zero());
    let alive = (0..count).fold(fresh.clone(), |state, task| state.release(task).unwrap_or(state));
    let last = with_last_nodes(&alive);
    let mut late = alive.clone();
    let mut ticks = 64;
    for entry in late.entries.iter_mut().filter(|entry| entry.is_high()) {
        entry.age = entry.virtual_deadline - 1;
        ticks = ticks.min(entry.age);
    }
    Input {
        name,
        growth: false,
        plan_only: false,
        sheet,
        processors,
        count,
        accepted,
        fresh: to_words(&fresh),
        alive: to_words(&alive),
        late: to_words(&late),
        last_reports: last.entries[..count].iter().map(last_node).collect(),
        last: to_words(&last),
        reports: vec![1; count],
        ticks,
    }
}

fn grown(m: u8, n: u8, k: u8) -> Input {
    let input = input(format!("M {m}, n {n}, k {k}"), alike(m, n, high_task(k, u32::from(m / n))));
    Input { growth: true, ..input }
}

/// The small sheet, the full one, the worst one, both of these in the wide form, with figures near a million, the one of
/// low tasks, and growth over M, n and k.
pub fn all() -> Vec<Input> {
    let mut inputs = vec![
        input("small".into(), CASE_14.to_vec()),
        input("full".into(), alike(64, 16, high_task(32, 4))),
        input("worst".into(), alike(64, 16, high_task(32, 63))),
        Input { plan_only: true, ..input("wide-full".into(), alike(64, 16, wide(high_task(32, 4), 2_000))) },
        Input { plan_only: true, ..input("wide-worst".into(), alike(64, 16, wide(high_task(32, 63), 150))) },
        Input { plan_only: true, ..input("low".into(), low_tasks()) },
    ];
    inputs.extend([8, 16, 32, 64].map(|m| grown(m, 4, 32)));
    inputs.extend([1, 4, 8, 16].map(|n| grown(64, n, 32)));
    inputs.extend([1, 8, 16, 32].map(|k| grown(64, 16, k)));
    inputs
}

/// A text to import, and the bytes of the record that comes of it.
pub struct Text {
    pub name: String,
    pub growth: bool,
    pub text: Vec<u8>,
    pub record: usize,
}

/// What is asked for beside a text: a high task, whose times a half is added to.
pub const LEVEL: u32 = 1;
pub const DEADLINE: u32 = 150;
pub const PERCENTAGE: u32 = 150;

/// 32 nodes, each with all lower ones as its predecessors, listed so many times.
fn complete(times: usize) -> Graph {
    let node = |v: usize| Entry { time: 5 + v, predecessors: (1..v).collect::<Vec<_>>().repeat(times) };
    Graph::of((1..=32).map(node).collect())
}

/// A graph's numerals with this before each.
fn text(graph: &Graph, before: &str) -> Text {
    let text = graph.words().iter().map(|word| format!("{before}{word}")).collect::<String>().into_bytes();
    Text { name: "graph".into(), growth: false, text, record: HEAD + 4 * graph.count() }
}

fn longer(what: &str, text: Text) -> Text {
    Text { name: format!("{what}, {} bytes", text.text.len()), growth: true, ..text }
}

/// The text of a graph in which each node has all lower ones as predecessors, and growth over its length: by
/// predecessors listed again and again, by blanks, and by leading zeros.
pub fn texts() -> Vec<Text> {
    let mut texts = vec![text(&complete(1), " ")];
    texts.extend([1, 4, 16].map(|times| longer("predecessors", text(&complete(times), " "))));
    texts.extend([4, 16].map(|times| longer("blanks", text(&complete(1), &" ".repeat(times)))));
    texts.extend([4, 16].map(|times| longer("zeros", text(&complete(1), &format!(" {}", "0".repeat(times))))));
    texts
}
