//! Logs of calls and what a replay of them gives, by S12: written from the specification's words, on the independent
//! dispatcher.
use crate::reference::answers::{Reply, NO_TASK};
use crate::reference::dispatcher::{self, set_of, Mode, State, Ticked};

/// A call on a state.
#[derive(Clone, Debug, PartialEq, Eq)]
pub enum Call {
    Release(usize),
    Tick(Vec<u32>),
}

const RELEASE: u8 = 0;
const TICK: u8 = 1;

/// The bytes of a list of calls (S12.1). A task number has four of them, and a tick at most 255 reports.
pub fn log_of(calls: &[Call]) -> Vec<u8> {
    let mut log = Vec::new();
    for call in calls {
        match call {
            Call::Release(task) => {
                log.push(RELEASE);
                log.extend(u32::try_from(*task).unwrap_or(u32::MAX).to_le_bytes());
            }
            Call::Tick(reports) => {
                log.extend([TICK, reports.len() as u8]);
                log.extend(reports.iter().flat_map(|report| report.to_le_bytes()));
            }
        }
    }
    log
}

/// The calls of a log, up to where it ends.
pub fn calls_of(log: &[u8]) -> Vec<Call> {
    std::iter::successors(call_at(log), |(_, rest)| call_at(rest)).map(|(call, _)| call).collect()
}

/// The first call of a log, and what is behind it.
fn call_at(log: &[u8]) -> Option<(Call, &[u8])> {
    let word = |bytes: &[u8]| u32::from_le_bytes([bytes[0], bytes[1], bytes[2], bytes[3]]);
    let (&kind, rest) = log.split_first()?;
    match kind {
        RELEASE => {
            let (task, rest) = rest.split_at_checked(4)?;
            Some((Call::Release(word(task) as usize), rest))
        }
        TICK => {
            let (&count, rest) = rest.split_first()?;
            let (reports, rest) = rest.split_at_checked(4 * usize::from(count))?;
            Some((Call::Tick(reports.chunks_exact(4).map(word).collect()), rest))
        }
        _ => None,
    }
}

/// A replay: its bytes (S12.2), and what each call answered.
pub struct Replay {
    pub bytes: Vec<u8>,
    pub start: Reply,
    pub replies: Vec<Reply>,
}

/// The replay of a sheet and a log.
pub fn replay(sheet: &[u8], log: &[u8]) -> Replay {
    match dispatcher::start(sheet) {
        Err(refusal) => {
            let start = Reply::from(refusal);
            Replay { bytes: said(start)[1..].to_vec(), start, replies: Vec::new() }
        }
        Ok(state) => run(state, &calls_of(log)),
    }
}

fn run(mut state: State, calls: &[Call]) -> Replay {
    let mut bytes = said(Reply::Done)[1..].to_vec();
    let mut replies = Vec::new();
    for call in calls {
        let step = match call {
            Call::Release(task) => state.release(*task).map(|next| (Reply::Done, next)),
            Call::Tick(reports) => state.tick(reports).map(|Ticked { state, outcome }| (outcome.into(), state)),
        };
        let reply = match step {
            Ok((reply, next)) => {
                state = next;
                reply
            }
            Err(refusal) => refusal.into(),
        };
        bytes.extend(said(reply));
        bytes.extend(held(&state));
        replies.push(reply);
    }
    Replay { bytes, start: Reply::Done, replies }
}

/// The outcome, the number and the task of an answer.
fn said(reply: Reply) -> [u8; 3] {
    match reply {
        Reply::Done => [0, 0, NO_TASK],
        Reply::Switched(task) => [1, 0, task],
        Reply::Refused(number, task) => [2, number, task],
        Reply::Returned => [3, 0, NO_TASK],
    }
}

/// The mode, and of each task whether its job is alive, its age and its ended set.
fn held(state: &State) -> Vec<u8> {
    let mut bytes = vec![u8::from(state.mode == Mode::Critical)];
    for entry in &state.entries[..usize::from(state.count)] {
        bytes.push(entry.alive.into());
        bytes.extend(entry.age.to_le_bytes());
        bytes.extend(set_of(&entry.ended).to_le_bytes());
    }
    bytes
}

#[cfg(test)]
mod tests {
    use super::*;
    use crate::makers::sheets::CASE_14;

    #[test]
    fn a_log_says_its_calls() {
        let calls = [Call::Release(2), Call::Tick(vec![1, 0x0102_0304]), Call::Tick(vec![]), Call::Release(77)];
        let log = log_of(&calls);
        assert_eq!(log, [0, 2, 0, 0, 0, 1, 2, 1, 0, 0, 0, 4, 3, 2, 1, 1, 0, 0, 77, 0, 0, 0]);
        assert_eq!(calls_of(&log), calls);
        assert_eq!(calls_of(&log[..log.len() - 1]), calls[..3]);
        assert_eq!(calls_of(&[&log[..5], &[2], &log[5..]].concat()), calls[..1]);
    }

    #[test]
    fn a_release_and_a_tick_of_case_14() {
        let replayed = replay(&CASE_14, &log_of(&[Call::Release(1), Call::Tick(vec![0, 1, 0])]));
        let idle = |age| [0, age, 0, 0, 0, 0, 0, 0, 0];
        let released = [&[0, 0, 255, 0][..], &idle(45), &[1, 0, 0, 0, 0, 0, 0, 0, 0], &idle(18)].concat();
        let ticked = [&[0, 0, 255, 0][..], &idle(45), &[0, 1, 0, 0, 0, 1, 0, 0, 0], &idle(18)].concat();
        assert_eq!(replayed.bytes, [&[0, 255][..], &released, &ticked].concat());
        assert_eq!(replay(&CASE_14[..5], &[]).bytes, [1, 255]);
    }

    /// B's V is 7: the seventh tick switches, and the eighth, with which B's node ends, returns.
    #[test]
    fn a_switch_and_a_return_of_case_14() {
        let idle = Call::Tick(vec![0; 3]);
        let calls = [vec![Call::Release(1)], vec![idle; 7], vec![Call::Tick(vec![0, 1, 0])]].concat();
        let replayed = replay(&CASE_14, &log_of(&calls));
        let row = |alive, age, ended| [alive, age, 0, 0, 0, ended, 0, 0, 0];
        let held = |head: [u8; 4], b: [u8; 9]| [&head[..], &row(0, 45, 0), &b, &row(0, 18, 0)].concat();
        let [switched, returned] = [held([1, 0, 1, 1], row(1, 7, 0)), held([3, 0, 255, 0], row(0, 8, 1))];
        assert_eq!(replayed.bytes[2 + 31 * 7..], [switched, returned].concat());
    }
}
