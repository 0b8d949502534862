//! Runs lists of calls over two sheets with tasks in common on a dispatcher, and holds it to what is promised of such a
//! task seen by itself. Same shares, releases, reports and standing states give it the same nodes (S10.14); while nothing
//! switches, the same typical share is enough (S10.15). Nothing is asked of what else the lists do.
use crate::harness::boundary::{place, Dispatcher, AGE, ALIVE, CRITICAL_SHARE, ENDED, ENTRY, MODE};
use crate::harness::counts::Counts;
use crate::makers::random::seed;
use crate::reference::answers::Reply;
use crate::reference::logs::Call;

mod met;

/// What a dispatcher shows of a task: its nodes on the board, and what calls change of its entry.
#[derive(Clone, Debug, PartialEq, Eq)]
pub struct View {
    pub running: Vec<u8>,
    pub ended: u32,
    pub alive: u32,
    pub age: u32,
}

/// The views of some tasks of a line.
pub fn views(dispatcher: &dyn Dispatcher, line: &[u32], tasks: &[usize]) -> Vec<View> {
    let mut board = vec![0; 2 * line[0] as usize];
    assert_eq!(dispatcher.board(line, &mut board), Reply::Done);
    let view = |&task: &usize| View {
        running: board.chunks_exact(2).filter(|pair| usize::from(pair[0]) == task).map(|pair| pair[1]).collect(),
        ended: line[place(task, ENDED)],
        alive: line[place(task, ALIVE)],
        age: line[place(task, AGE)],
    };
    tasks.iter().map(view).collect()
}

/// An accepted tick: its answer, and of each common task the view just before it and the report.
struct Tick {
    reply: Reply,
    before: Vec<View>,
    reports: Vec<u32>,
}

/// What follows an accepted tick, or Start, up to and with the next accepted tick, if there is one.
struct Stretch {
    /// The word of the mode.
    mode: u32,
    /// The view of each common task at its start.
    after: Vec<View>,
    calls: usize,
    /// The tasks of the accepted releases.
    released: Vec<usize>,
    refusals: Vec<Reply>,
    tick: Option<Tick>,
}

impl Stretch {
    fn new(dispatcher: &dyn Dispatcher, line: &[u32], common: &[usize]) -> Stretch {
        let after = views(dispatcher, line, common);
        Stretch { mode: line[MODE], after, calls: 0, released: Vec::new(), refusals: Vec::new(), tick: None }
    }
}

/// A list as a dispatcher ran it: stretch 0 follows Start, and stretch s the s-th accepted tick.
pub struct Run<'a> {
    fresh: &'a [u32],
    /// The numbers of the common tasks.
    common: &'a [usize],
    stretches: Vec<Stretch>,
}

impl Run<'_> {
    /// Runs a list of calls from the line of a fresh state.
    pub fn new<'a>(dispatcher: &dyn Dispatcher, fresh: &'a [u32], calls: &[Call], common: &'a [usize]) -> Run<'a> {
        let mut stretches = vec![Stretch::new(dispatcher, fresh, common)];
        let mut line = fresh.to_vec();
        for call in calls {
            let (reply, next) = match call {
                Call::Release(task) => dispatcher.release(&line, *task),
                Call::Tick(reports) => dispatcher.tick(&line, reports),
            };
            let stretch = stretches.last_mut().expect("there is a first");
            stretch.calls += 1;
            match (reply, call) {
                (Reply::Refused(..), _) => stretch.refusals.push(reply),
                (_, Call::Release(task)) => stretch.released.push(*task),
                (_, Call::Tick(reports)) => {
                    let before = views(dispatcher, &line, common);
                    let reports = common.iter().map(|&task| reports[task]).collect();
                    stretch.tick = Some(Tick { reply, before, reports });
                    stretches.push(Stretch::new(dispatcher, &next, common));
                }
            }
            line = next;
        }
        Run { fresh, common, stretches }
    }

    /// The words of a common task's entry in the fresh state.
    fn entry(&self, i: usize) -> &[u32] {
        &self.fresh[place(self.common[i], 0)..][..ENTRY]
    }

    /// The accepted releases of a common task in a stretch, and its report of the tick behind it, if there is one.
    fn conduct(&self, stretch: usize, i: usize) -> Option<(usize, u32)> {
        let Stretch { released, tick, .. } = &self.stretches[stretch];
        let releases = released.iter().filter(|&&task| task == self.common[i]).count();
        tick.as_ref().map(|tick| (releases, tick.reports[i]))
    }
}

/// What is asked of the standing states after each tick.
#[derive(Clone, Copy, Debug, PartialEq, Eq)]
pub enum Asked {
    /// That both are the same (S10.14).
    Alike,
    /// That both are typical: no tick switched (S10.15).
    Typical,
}

/// Why nothing more is promised of two lists.
enum End {
    /// One of them ends.
    List,
    /// The task's releases or reports differ.
    Conduct,
    /// The standing states are not as asked.
    Modes,
}

/// A moment at which two views differ that are promised to be alike.
#[derive(Debug)]
pub struct Unlike {
    pub when: String,
    pub views: [View; 2],
}

/// Two runs, and one of their common tasks.
pub struct Pair<'a> {
    pub runs: [&'a Run<'a>; 2],
    pub i: usize,
    pub asked: Asked,
}

impl Pair<'_> {
    /// Whether the task has the same record and the same shares in both, or the same typical share where no more is asked.
    fn is_common(&self) -> bool {
        let [one, other] = self.runs.map(|run| run.entry(self.i));
        let is_asked = |word: &usize| self.asked == Asked::Alike || *word != CRITICAL_SHARE;
        (0..ENTRY).filter(is_asked).all(|word| one[word] == other[word])
    }

    /// A stretch of both runs, where both have it.
    fn stretches(&self, s: usize) -> Option<[&Stretch; 2]> {
        let [one, other] = self.runs.map(|run| run.stretches.get(s));
        Some([one?, other?])
    }

    /// The last tick up to which all is as asked, and why it is the last. Before the first tick all is.
    fn last(&self) -> (usize, End) {
        let mut last = 0;
        while let Some([one, other]) = self.stretches(last + 1) {
            let [conduct, of_other] = self.runs.map(|run| run.conduct(last, self.i));
            if conduct != of_other {
                return (last, End::Conduct);
            }
            if one.mode != other.mode || self.asked == Asked::Typical && one.mode != 0 {
                return (last, End::Modes);
            }
            last += 1;
        }
        (last, End::List)
    }

    /// Holds the views of the task just after each tick and just before the next to be alike, as far as it is promised.
    pub fn hold(&self, counts: &mut Counts) -> Result<(), Unlike> {
        assert!(self.is_common(), "seed {}: task {} is not common", seed(), self.i);
        let (last, end) = self.last();
        for s in 0..=last {
            let both = self.stretches(s).expect("both have the last");
            alike(both.map(|stretch| &stretch.after[self.i]), || format!("just after tick {s}"))?;
            if let ([Some(one), Some(other)], true) = (both.map(|stretch| stretch.tick.as_ref()), s < last) {
                alike([one, other].map(|tick| &tick.before[self.i]), || format!("just before tick {}", s + 1))?;
            }
        }
        self.count(last, end, counts);
        Ok(())
    }
}

fn alike(views: [&View; 2], when: impl Fn() -> String) -> Result<(), Unlike> {
    match views[0] == views[1] {
        true => Ok(()),
        false => Err(Unlike { when: when(), views: views.map(View::clone) }),
    }
}
