//! A dispatcher by S7, S8 and refusals 10 to 16 of the specification. Sets of nodes are rows of marks, and a
//! step makes a whole state out of the one before. It shares nothing with the proved one: neither code nor definitions.
use crate::reference::answers::{Cause, Refusal, Reply};
use crate::reference::planner::{self, Plan};
use crate::reference::reader::{self, Form, Level, Sheet};

/// The entries of a state.
pub const ENTRIES: usize = reader::TASKS;
/// The nodes that an entry has room for.
pub const NODES: usize = reader::NODES;

/// A mark for each node.
pub type Nodes = [bool; NODES];

/// The nodes of a set in a u32.
pub fn nodes(set: u32) -> Nodes {
    let mut nodes = [false; NODES];
    for (node, marked) in nodes.iter_mut().enumerate().take_while(|(node, _)| set >> node != 0) {
        *marked = set >> node & 1 == 1;
    }
    nodes
}

/// The set in a u32 of some nodes.
pub fn set_of(nodes: &Nodes) -> u32 {
    nodes.iter().enumerate().fold(0, |set, (node, &marked)| set | u32::from(marked) << node)
}

/// The standing state.
#[derive(Clone, Copy, Debug, PartialEq, Eq)]
pub enum Mode {
    Typical,
    Critical,
}

#[derive(Clone, Debug, PartialEq, Eq)]
pub struct Entry {
    /// The byte of the level and the form.
    pub level: u8,
    /// k.
    pub nodes: u8,
    pub typical: u8,
    pub critical: u8,
    pub alive: bool,
    /// D.
    pub deadline: u32,
    /// V.
    pub virtual_deadline: u32,
    pub age: u32,
    pub ended: Nodes,
    /// For each node the nodes that precede it.
    pub preceding: [Nodes; NODES],
}

#[derive(Clone, Debug, PartialEq, Eq)]
pub struct State {
    /// M.
    pub processors: u8,
    /// n.
    pub count: u8,
    pub mode: Mode,
    /// There are sixteen.
    pub entries: Vec<Entry>,
}

/// A way in which a state is not sound.
#[derive(Clone, Copy, Debug, PartialEq, Eq, PartialOrd, Ord)]
pub enum Fault {
    Processors,
    Count,
    Level,
    NodeCount,
    Mask,
    Deadline,
    VirtualDeadline,
    TypicalTotal,
    CriticalTotal,
    Age,
    EndedNode,
    AliveButEnded,
}

/// What an accepted tick did to the standing state.
#[derive(Clone, Copy, Debug, PartialEq, Eq)]
pub enum Outcome {
    /// Nothing.
    Ran,
    /// It turned it critical; the lowest task that was late.
    Switched(usize),
    /// It turned it typical again.
    Returned,
}

impl From<Outcome> for Reply {
    fn from(outcome: Outcome) -> Reply {
        match outcome {
            Outcome::Ran => Reply::Done,
            Outcome::Switched(task) => Reply::Switched(task as u8),
            Outcome::Returned => Reply::Returned,
        }
    }
}

/// An accepted tick: the state after it, and what it did.
#[derive(Clone, Debug, PartialEq, Eq)]
pub struct Ticked {
    pub state: State,
    pub outcome: Outcome,
}

/// Start: refusals 1 to 8, else the fresh state.
pub fn start(sheet: &[u8]) -> Result<State, Refusal> {
    planner::read_and_plan(sheet).map(|(sheet, plan)| State::fresh(&sheet, &plan))
}

impl Entry {
    pub const ZERO: Entry = Entry {
        level: 0,
        nodes: 0,
        typical: 0,
        critical: 0,
        alive: false,
        deadline: 0,
        virtual_deadline: 0,
        age: 0,
        ended: [false; NODES],
        preceding: [[false; NODES]; NODES],
    };

    /// The nodes below k; there are no more than 32.
    fn own(&self) -> std::ops::Range<usize> {
        0..NODES.min(self.nodes.into())
    }

    pub fn all_ended(&self) -> bool {
        self.own().all(|v| self.ended[v])
    }

    fn is_ready(&self, v: usize) -> bool {
        let waits = (0..NODES).any(|j| self.preceding[v][j] && !self.ended[j]);
        self.alive && !self.ended[v] && !waits
    }

    fn share(&self, mode: Mode) -> usize {
        match mode {
            Mode::Typical => self.typical.into(),
            Mode::Critical => self.critical.into(),
        }
    }

    /// Whether its level is high, in either form.
    pub fn is_high(&self) -> bool {
        matches!(reader::of_level_byte(self.level), Some((Level::High, _)))
    }

    /// Whether it is a low task that the critical state keeps.
    pub fn is_kept(&self) -> bool {
        !self.is_high() && self.critical > 0
    }

    /// Whether a switch leaves its job, and the critical state takes its releases.
    pub fn stays(&self) -> bool {
        self.is_high() || self.is_kept()
    }

    /// All ways in which the entry is not sound. D has a limit where the level is lawful.
    fn faults(&self) -> Vec<Fault> {
        let form = reader::of_level_byte(self.level).map(|(_, form)| form);
        let limit = form.map_or(u32::MAX, Form::limit);
        let k = usize::from(self.nodes);
        let forward = self.own().any(|v| self.preceding[v][v..].contains(&true));
        let all_ended = k <= NODES && self.all_ended();
        let tests = [
            (Fault::Level, form.is_none()),
            (Fault::NodeCount, !(1..=NODES).contains(&k)),
            (Fault::Mask, forward),
            (Fault::Deadline, !(1..=limit).contains(&self.deadline)),
            (Fault::VirtualDeadline, self.virtual_deadline > self.deadline),
            (Fault::Age, self.age > self.deadline),
            (Fault::EndedNode, self.ended.iter().skip(k).any(|&ended| ended)),
            (Fault::AliveButEnded, self.alive && all_ended),
        ];
        tests.into_iter().filter(|&(_, broken)| broken).map(|(fault, _)| fault).collect()
    }
}

impl State {
    /// The state that a refused Start returns.
    pub fn zero() -> State {
        State { processors: 0, count: 0, mode: Mode::Typical, entries: vec![Entry::ZERO; ENTRIES] }
    }

    /// The state of a planned sheet: typical, nothing alive, no node ended, each age = D.
    pub fn fresh(sheet: &Sheet, plan: &Plan) -> State {
        let mut state = State { processors: sheet.processors, count: sheet.tasks.len() as u8, ..State::zero() };
        for ((entry, task), planned) in state.entries.iter_mut().zip(&sheet.tasks).zip(&plan.tasks) {
            *entry = Entry {
                level: reader::level_byte(task.level, task.form),
                nodes: task.masks.len() as u8,
                typical: planned.shares.typical as u8,
                critical: planned.shares.critical as u8,
                deadline: task.figures.d,
                virtual_deadline: planned.virtual_deadline,
                age: task.figures.d,
                ..Entry::ZERO
            };
            for (preceding, &mask) in entry.preceding.iter_mut().zip(&task.masks) {
                *preceding = nodes(mask);
            }
        }
        state
    }

    /// The entries below n; there are no more than sixteen.
    fn own(&self) -> &[Entry] {
        &self.entries[..ENTRIES.min(self.count.into())]
    }

    /// All ways in which the state is not sound.
    pub fn faults(&self) -> Vec<Fault> {
        let total = |mode| self.own().iter().map(|entry| entry.share(mode)).sum::<usize>();
        let most = usize::from(self.processors);
        let tests = [
            (Fault::Processors, !(1..=64).contains(&most)),
            (Fault::Count, !(1..=ENTRIES).contains(&usize::from(self.count))),
            (Fault::TypicalTotal, total(Mode::Typical) > most),
            (Fault::CriticalTotal, total(Mode::Critical) > most),
        ];
        let of_state = tests.into_iter().filter(|&(_, broken)| broken).map(|(fault, _)| fault);
        let mut all: Vec<Fault> = of_state.chain(self.own().iter().flat_map(Entry::faults)).collect();
        all.sort();
        all
    }

    /// The high tasks with an alive job.
    pub fn high_jobs(&self) -> Vec<usize> {
        let with_job = |task: &usize| self.entries[*task].is_high() && self.entries[*task].alive;
        (0..self.own().len()).filter(with_job).collect()
    }

    fn sound(&self) -> Result<(), Refusal> {
        if self.faults().is_empty() {
            Ok(())
        } else {
            Err(Refusal::whole(Cause::NotSound))
        }
    }

    /// A task's running nodes: its lowest ready ones, as many as its share in the standing state allows.
    pub fn running(&self, task: usize) -> Vec<usize> {
        let entry = &self.entries[task];
        entry.own().filter(|&v| entry.is_ready(v)).take(entry.share(self.mode)).collect()
    }

    /// Release: refusals 10 to 13, else the state with the job alive.
    pub fn release(&self, task: usize) -> Result<State, Refusal> {
        self.sound()?;
        let entry = self.own().get(task).ok_or(Refusal::whole(Cause::NoSuchTask))?;
        if self.mode == Mode::Critical && !entry.stays() {
            return Err(Refusal::of(Cause::NotKept, task));
        }
        if entry.alive || entry.age < entry.deadline {
            return Err(Refusal::of(Cause::NotDue, task));
        }
        let mut state = self.clone();
        let entry = &mut state.entries[task];
        (entry.alive, entry.ended, entry.age) = (true, [false; NODES], 0);
        Ok(state)
    }

    /// Tick: refusals 10, 14 and 15, else the state after it.
    pub fn tick(&self, reports: &[u32]) -> Result<Ticked, Refusal> {
        self.sound()?;
        if reports.len() != self.own().len() {
            return Err(Refusal::whole(Cause::ReportCount));
        }
        let reports: Vec<Nodes> = reports.iter().map(|&report| nodes(report)).collect();
        for (task, report) in reports.iter().enumerate() {
            let running = self.running(task);
            if (0..NODES).any(|v| report[v] && !running.contains(&v)) {
                return Err(Refusal::of(Cause::NotRunning, task));
            }
        }
        let mut state = self.clone();
        for (entry, report) in state.entries.iter_mut().zip(&reports) {
            entry.ended = std::array::from_fn(|v| entry.ended[v] || report[v]);
            entry.alive = entry.alive && !entry.all_ended();
            entry.age = entry.deadline.min(entry.age + 1);
        }
        Ok(match self.mode {
            Mode::Typical => state.switched_if_late(),
            Mode::Critical => state.returned_if_over(),
        })
    }

    /// The end of a tick in the typical state: it turns critical if a high job is as old as V, and drops the low jobs that
    /// are not kept.
    fn switched_if_late(mut self) -> Ticked {
        let is_late = |task: &usize| self.entries[*task].age >= self.entries[*task].virtual_deadline;
        let Some(task) = self.high_jobs().into_iter().find(is_late) else {
            return Ticked { state: self, outcome: Outcome::Ran };
        };
        self.mode = Mode::Critical;
        let count = self.own().len();
        for entry in &mut self.entries[..count] {
            entry.alive = entry.alive && entry.stays();
        }
        Ticked { state: self, outcome: Outcome::Switched(task) }
    }

    /// The end of a tick in the critical state: it turns typical if no high job is left. All jobs stay as they are.
    fn returned_if_over(self) -> Ticked {
        match self.high_jobs()[..] {
            [] => Ticked { state: State { mode: Mode::Typical, ..self }, outcome: Outcome::Returned },
            _ => Ticked { state: self, outcome: Outcome::Ran },
        }
    }

    /// Board: refusals 10 and 16 for a buffer of so many bytes, else what is written to it.
    pub fn board(&self, length: usize) -> Result<Vec<u8>, Refusal> {
        self.sound()?;
        if length != 2 * usize::from(self.processors) {
            return Err(Refusal::whole(Cause::BoardBuffer));
        }
        let mut board = vec![255; length];
        let mut first = 0;
        for (task, entry) in self.own().iter().enumerate() {
            for (place, v) in self.running(task).into_iter().enumerate() {
                board[2 * (first + place)..][..2].copy_from_slice(&[task as u8, v as u8]);
            }
            first += entry.share(self.mode);
        }
        Ok(board)
    }
}

#[cfg(test)]
mod tests {
    use super::*;
    use crate::makers::sheets::{Draft, CASE_14};

    /// Task A of S11 alone on two processors, with three nodes that nothing precedes.
    fn three_nodes() -> State {
        let mut a = CASE_14[14..26].to_vec();
        a[1] = 3;
        a.extend([0; 12]);
        start(&Draft { processors: 2, records: vec![a] }.bytes()).unwrap()
    }

    #[test]
    fn a_fresh_state_is_sound_and_idle() {
        let state = start(&CASE_14).unwrap();
        assert_eq!(state.faults(), []);
        assert_eq!(state.board(16).unwrap(), [255; 16]);
        assert_eq!(state.entries[3..], vec![Entry::ZERO; 13]);
        let of_entry =
            |entry: &Entry| (entry.level, entry.nodes, entry.typical, entry.critical, entry.virtual_deadline);
        let entries: Vec<_> = state.entries[..3].iter().map(of_entry).collect();
        assert_eq!(entries, [(1, 1, 1, 2, 9), (1, 1, 2, 6, 7), (0, 1, 5, 0, 0)]);
        assert!(state.entries[..3].iter().all(|entry| entry.age == entry.deadline && !entry.alive));
    }

    #[test]
    fn a_job_of_each_task_fills_the_front_of_its_block() {
        let mut state = start(&CASE_14).unwrap();
        for task in [2, 0, 1] {
            state = state.release(task).unwrap();
        }
        let pairs = |state: &State| -> Vec<(usize, u8, u8)> {
            let board = state.board(16).unwrap();
            let pairs = board.chunks_exact(2).enumerate().map(|(place, pair)| (place, pair[0], pair[1]));
            pairs.filter(|&(_, task, node)| (task, node) != (255, 255)).collect()
        };
        assert_eq!(pairs(&state), [(0, 0, 0), (1, 1, 0), (3, 2, 0)]);
        for tick in 1..=7 {
            let ticked = state.tick(&[0; 3]).unwrap();
            assert_eq!(ticked.outcome, if tick == 7 { Outcome::Switched(1) } else { Outcome::Ran }, "B's V is 7");
            state = ticked.state;
        }
        assert_eq!(pairs(&state), [(0, 0, 0), (2, 1, 0)]);
        assert!(!state.entries[2].alive);
        assert_eq!(state.release(2), Err(Refusal::of(Cause::NotKept, 2)));
        assert_eq!(state.release(1), Err(Refusal::of(Cause::NotDue, 1)));
        assert_eq!(state.release(3), Err(Refusal::whole(Cause::NoSuchTask)));
        assert_eq!(state.tick(&[0; 2]), Err(Refusal::whole(Cause::ReportCount)));
        assert_eq!(state.tick(&[0, 2, 1]), Err(Refusal::of(Cause::NotRunning, 1)));
        assert_eq!(state.tick(&[1, 1, 1]), Err(Refusal::of(Cause::NotRunning, 2)));
        assert_eq!(state.board(15), Err(Refusal::whole(Cause::BoardBuffer)));
        assert_eq!(state.tick(&[1, 1, 0]).unwrap().state.entries[0].age, 8);
    }

    /// A beside E on seven processors: A has 1, then 2, and E is kept with 5.
    #[test]
    fn a_kept_job_goes_on_over_the_switch_and_comes_again() {
        let [a, e] = [14, 46].map(|at| CASE_14[at..at + 16].to_vec());
        let mut state = start(&Draft { processors: 7, records: vec![a, e] }.bytes()).unwrap();
        assert!(!state.entries[0].is_kept() && state.entries[0].stays() && state.entries[1].is_kept());
        state = state.release(0).unwrap().release(1).unwrap();
        let [on_one, on_two] = [2, 4].map(|place| {
            let mut board = vec![255; 14];
            board[..2].copy_from_slice(&[0, 0]);
            board[place..place + 2].copy_from_slice(&[1, 0]);
            board
        });
        for tick in 1..=9 {
            assert_eq!(state.board(14).unwrap(), on_one);
            let ticked = state.tick(&[0; 2]).unwrap();
            assert_eq!(ticked.outcome, if tick == 9 { Outcome::Switched(0) } else { Outcome::Ran }, "A's V is 9");
            state = ticked.state;
        }
        assert_eq!(state.board(14).unwrap(), on_two);
        assert_eq!((state.mode, state.entries[1].age), (Mode::Critical, 9));
        state = state.tick(&[0, 1]).unwrap().state;
        assert!(!state.entries[1].alive && state.entries[1].all_ended());
        assert_eq!(state.release(1), Err(Refusal::of(Cause::NotDue, 1)));
        for _ in 10..18 {
            state = state.tick(&[0; 2]).unwrap().state;
        }
        state = state.release(1).unwrap();
        assert!(state.entries[1].alive && state.mode == Mode::Critical);
        let Ticked { state, outcome } = state.tick(&[1, 0]).unwrap();
        assert_eq!((outcome, state.mode), (Outcome::Returned, Mode::Typical));
        assert!(!state.entries[0].alive && state.entries[1].alive && state.entries[1].age == 1);
        assert_eq!(state.board(14).unwrap()[2..4], [1, 0], "behind A's one processor");
        assert_eq!(state.tick(&[0; 2]).unwrap().outcome, Outcome::Ran);
    }

    /// A, B and E on eight processors: with B's overrun E is dropped, and with the last high job's end it may come again.
    #[test]
    fn the_typical_state_is_back_when_no_high_job_is_left() {
        let mut state = start(&CASE_14).unwrap();
        for task in 0..3 {
            state = state.release(task).unwrap();
        }
        let mut tick = |reports: &[u32]| {
            let ticked = state.tick(reports).unwrap();
            state = ticked.state.clone();
            ticked
        };
        let outcomes: Vec<Outcome> = (0..7).map(|_| tick(&[0; 3]).outcome).collect();
        assert_eq!(outcomes[5..], [Outcome::Ran, Outcome::Switched(1)]);
        assert_eq!(tick(&[0, 1, 0]).outcome, Outcome::Ran, "A's job is left");
        assert_eq!(tick(&[0; 3]).outcome, Outcome::Ran, "A is late, but the state is critical");
        let Ticked { state: before, .. } = tick(&[0; 3]);
        let Ticked { mut state, outcome } = tick(&[1, 0, 0]);
        assert_eq!((outcome, state.mode), (Outcome::Returned, Mode::Typical));
        let told = |state: &State| -> Vec<(bool, u32, u32)> {
            state.own().iter().map(|entry| (entry.alive, entry.age, set_of(&entry.ended))).collect()
        };
        assert_eq!(told(&before), [(true, 10, 0), (false, 10, 1), (false, 10, 0)]);
        assert_eq!(told(&state), [(false, 11, 1), (false, 11, 1), (false, 11, 0)]);
        for task in 0..3 {
            assert_eq!(state.release(task), Err(Refusal::of(Cause::NotDue, task)));
        }
        for _ in 11..18 {
            let ticked = state.tick(&[0; 3]).unwrap();
            assert_eq!(ticked.outcome, Outcome::Ran);
            state = ticked.state;
        }
        assert!(state.release(2).unwrap().entries[2].alive);
    }

    /// Critical with no high job alive, as no list of calls leaves it.
    #[test]
    fn a_critical_state_without_high_jobs_returns_with_its_next_tick() {
        let mut state = State { mode: Mode::Critical, ..start(&CASE_14).unwrap() };
        assert_eq!(state.tick(&[0; 2]), Err(Refusal::whole(Cause::ReportCount)));
        assert_eq!(state.release(2), Err(Refusal::of(Cause::NotKept, 2)));
        assert_eq!(state.release(0).unwrap().tick(&[0; 3]).unwrap().outcome, Outcome::Ran);
        assert_eq!(state.release(0).unwrap().tick(&[1, 0, 0]).unwrap().outcome, Outcome::Returned);
        state.entries[2] = Entry { alive: true, age: 3, ..state.entries[2].clone() };
        let Ticked { state, outcome } = state.tick(&[0; 3]).unwrap();
        assert_eq!((outcome, state.mode), (Outcome::Returned, Mode::Typical));
        assert!(state.entries[2].alive && state.entries[2].age == 4, "a low job goes on");
    }

    /// Whatever its critical share above 0 is, a low task is kept.
    #[test]
    fn a_critical_share_of_its_own_keeps_a_low_task() {
        let mut state = start(&CASE_14).unwrap().release(2).unwrap().release(0).unwrap();
        (state.entries[1].critical, state.entries[2].critical) = (5, 1);
        assert_eq!(state.faults(), []);
        state.entries[0].age = 8;
        let ticked = state.tick(&[0; 3]).unwrap();
        assert_eq!(ticked.outcome, Outcome::Switched(0));
        assert!(ticked.state.entries[2].alive);
        assert_eq!(ticked.state.board(16).unwrap()[14..], [2, 0]);
        state.entries[2].critical = 0;
        assert!(!state.tick(&[0; 3]).unwrap().state.entries[2].alive);
    }

    #[test]
    fn a_job_may_come_again_when_its_age_is_d() {
        let mut state = three_nodes().release(0).unwrap();
        state = state.tick(&[1]).unwrap().state.tick(&[2]).unwrap().state.tick(&[4]).unwrap().state;
        assert!(!state.entries[0].alive && set_of(&state.entries[0].ended) == 7);
        for _ in 3..45 {
            assert_eq!(state.release(0), Err(Refusal::of(Cause::NotDue, 0)));
            state = state.tick(&[0]).unwrap().state;
        }
        assert_eq!(state.tick(&[0]).unwrap().state.entries[0].age, 45);
        state = state.release(0).unwrap();
        assert!(state.entries[0].alive && set_of(&state.entries[0].ended) == 0 && state.entries[0].age == 0);
    }
}
