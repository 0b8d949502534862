//! Runs a list of calls from Start on a dispatcher, and holds what it answers, leaves and shows on its boards to
//! the model of S10.2 and to what is promised of whole lists: high jobs within their overload budgets end in time, and
//! so do low ones within theirs, kept ones in either state, over any switches and returns; nothing switches or returns
//! while high jobs keep their nominal budgets; the state is typical again when no high job is left, and soon after a
//! switch; and no task runs on more than its share.
use crate::harness::boundary::{to_words, Dispatcher};
use crate::harness::counts::{hold, Counts};
use crate::harness::returns::{Returns, Step};
use crate::harness::watch::Watch;
use crate::makers::random::seed;
use crate::makers::world::Story;
use crate::reference::answers::Reply;
use crate::reference::dispatcher::{Entry, Mode, State, Ticked, NODES};
use crate::reference::logs::Call;
use crate::reference::planner::{self, Plan};
use crate::reference::reader::{Level, Sheet};

struct Replay<'a> {
    sheet: Sheet,
    plan: Plan,
    watches: Vec<Option<Watch<'a>>>,
    returns: Returns,
    /// Whether all high jobs so far kept their nominal budgets under true reports, and their overload budgets.
    nominal: bool,
    overload: bool,
    counts: &'a mut Counts,
}

/// Runs a story on a dispatcher from the fresh state that Start returned for its sheet.
pub fn run(dispatcher: &dyn Dispatcher, fresh: Vec<u32>, story: &Story, counts: &mut Counts) {
    let (sheet, plan) = planner::read_and_plan(&story.sheet).expect("a story's sheet is accepted");
    let mut model = State::fresh(&sheet, &plan);
    let on = |place: usize| format!("call {place} of {story:?}");
    hold(&fresh, &to_words(&model), || on(0));
    let watches = sheet.tasks.iter().map(|_| None).collect();
    let returns = Returns::new(&sheet, &plan);
    let mut replay = Replay { sheet, plan, watches, returns, nominal: true, overload: true, counts };
    let mut state = fresh;
    for (place, call) in story.calls.iter().enumerate() {
        let (reply, next) = match call {
            Call::Release(task) => {
                let (reply, next) = dispatcher.release(&state, *task);
                let expected = model.release(*task).map(|next| model = next);
                hold(&reply, &expected.map_or_else(Reply::from, |()| Reply::Done), || on(place));
                if reply == Reply::Done {
                    replay.release(*task, &story.lengths[&place], model.mode);
                }
                (reply, next)
            }
            Call::Tick(reports) => {
                let mut board = vec![0; 2 * usize::from(replay.sheet.processors)];
                hold(&dispatcher.board(&state, &mut board), &Reply::Done, || on(place));
                let running = replay.running(&board, model.mode, || on(place));
                let (reply, next) = dispatcher.tick(&state, reports);
                let expected = match model.tick(reports) {
                    Ok(Ticked { state, outcome }) => {
                        model = state;
                        outcome.into()
                    }
                    Err(refusal) => refusal.into(),
                };
                hold(&reply, &expected, || on(place));
                if reply.number() == 0 {
                    let step = Step::new(reports, reply, &state, &next);
                    step.keeps_to_return(dispatcher, || on(place));
                    replay.tick(&step, &running, || on(place));
                }
                (reply, next)
            }
        };
        assert!(reply.number() == 0 || next == state, "a refused call changed the state: {}", on(place));
        hold(&next, &to_words(&model), || on(place));
        replay.counts.add(match (reply, call) {
            (Reply::Refused(number, _), _) => number.to_string(),
            (Reply::Switched(_), _) => "switched".to_string(),
            (Reply::Returned, _) => "returned".to_string(),
            (Reply::Done, Call::Release(_)) => "released".to_string(),
            (Reply::Done, Call::Tick(_)) => "ran".to_string(),
        });
        state = next;
    }
    replay.returns.close(replay.counts);
    replay.counts.add(if replay.nominal { "lists within nominal budgets" } else { "other lists" });
}

impl<'a> Replay<'a> {
    fn release(&mut self, task: usize, lengths: &'a [u32], mode: Mode) {
        let watch = Watch::new(&self.sheet.tasks[task], lengths, mode);
        if self.sheet.tasks[task].level == Level::High {
            self.nominal &= watch.keeps_nominal;
            self.overload &= watch.keeps_overload;
        }
        self.returns.release(task, self.counts);
        self.watches[task] = Some(watch);
    }

    /// Each task's running nodes as a board shows them: lowest first, from the front of the task's block in the standing
    /// state, and 255 in every other place. So no task has more than its share, and all have at most M.
    fn running(&self, board: &[u8], mode: Mode, on: impl Fn() -> String) -> Vec<Vec<usize>> {
        let blocks = match mode {
            Mode::Typical => self.plan.typical_blocks(),
            Mode::Critical => self.plan.critical_blocks(),
        };
        let mut expected = vec![255; board.len()];
        let mut running = Vec::new();
        for (task, (offset, share)) in blocks.into_iter().enumerate() {
            let places = 2 * offset..2 * (offset + share);
            let pairs = board[places.clone()].chunks_exact(2).take_while(|pair| **pair != [255, 255]);
            let nodes: Vec<usize> = pairs.map(|pair| pair[1].into()).collect();
            assert!(nodes.windows(2).all(|pair| pair[0] < pair[1]) && nodes.iter().all(|&v| v < NODES), "{}", on());
            let written = nodes.iter().flat_map(|&v| [task as u8, v as u8]);
            expected[places].iter_mut().zip(written).for_each(|(place, byte)| *place = byte);
            running.push(nodes);
        }
        hold(&board, &&expected[..], on);
        running
    }

    fn tick(&mut self, step: &Step, running: &[Vec<usize>], on: impl Fn() -> String) {
        for (task, nodes) in running.iter().enumerate() {
            let Some(mut watch) = self.watches[task].take() else { continue };
            let was_going_on = watch.is_going_on();
            watch.tick(nodes, step.reports[task], step.before.mode);
            watch.left_as(&step.after.entries[task], step);
            if self.sheet.tasks[task].level == Level::High {
                self.nominal &= watch.truthful;
                self.overload &= watch.truthful;
            }
            if was_going_on {
                self.count_tick(task, &watch, step);
            }
            self.hold_to_deadline(task, &watch, &step.after.entries[task], &on);
            self.watches[task] = Some(watch);
        }
        self.returns.tick(step, self.overload, self.counts, &on);
        if self.nominal {
            let turned = step.has_switched() || step.has_returned() || step.after.mode == Mode::Critical;
            assert!(!turned, "seed {}: switched or returned within nominal budgets: {}", seed(), on());
        }
    }

    /// S10.7, S10.11, and S10.10 of low jobs: with its D-th tick a job within its budget has ended, and it stays so.
    fn hold_to_deadline(&mut self, i: usize, watch: &Watch, entry: &Entry, on: impl Fn() -> String) {
        let task = &self.sheet.tasks[i];
        let deadline = task.figures.d;
        let stays = self.plan.tasks[i].shares.critical > 0;
        let promised = watch.truthful && watch.keeps_overload && (stays || watch.typical_only);
        if watch.ticks < deadline || !promised {
            return;
        }
        assert!(entry.all_ended() && !entry.alive, "seed {}: a job of task {i} is late: {}", seed(), on());
        if watch.ticks == deadline {
            match (task.level, stays) {
                (Level::High, _) => watch.count_high(deadline, self.counts),
                (Level::Low, true) => watch.count_kept(deadline, self.counts),
                (Level::Low, false) => self.counts.add("other low jobs that were due"),
            }
        }
    }

    /// Counts a job that was alive before a tick by what the tick did.
    fn count_tick(&mut self, i: usize, watch: &Watch, step: &Step) {
        let (task, v) = (&self.sheet.tasks[i], self.plan.tasks[i].virtual_deadline);
        let (is_high, d) = (task.level == Level::High, task.figures.d);
        if watch.dropped {
            self.counts.add("dropped jobs");
        }
        if is_high && watch.ended == Some(v) && watch.truthful && watch.keeps_nominal {
            self.counts.add("nominal jobs that ended in tick V");
        }
        if is_high && step.has_returned() && watch.ticks > v {
            self.counts.add("late jobs that ended with a return");
        }
        if is_high && step.has_returned() && watch.ticks == d {
            self.counts.add("high jobs that ended with a return in tick D");
        }
        if step.has_returned() && watch.is_going_on() && watch.ticks >= d {
            self.counts.add("low jobs alive over a return after tick D");
        }
    }
}
