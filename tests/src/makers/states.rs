//! Makers of states: random sound ones, with noise where nothing is read, and the same with one fault.
use crate::makers::random::Random;
use crate::makers::sheets::{forms, PROCESSORS};
use crate::reference::dispatcher::{nodes, Entry, Fault, Mode, Nodes, State, ENTRIES, NODES};
use crate::reference::reader::{level_byte, of_level_byte, Form, Level};

/// A random sound state; what no call reads is noise.
pub fn sound(random: &mut Random) -> State {
    let processors = random.skewed(1..=PROCESSORS);
    let count = random.skewed(1..=ENTRIES);
    let mode = *random.pick(&[Mode::Typical, Mode::Typical, Mode::Critical]);
    let mut entries = sound_entries(random, processors, count);
    entries.resize_with(ENTRIES, || noise(random));
    if mode == Mode::Typical && random.once_in(2) {
        // Else almost every tick of many tasks would turn the state critical.
        for entry in &mut entries[..count] {
            entry.virtual_deadline = entry.deadline;
            entry.age = entry.age.min(entry.deadline.saturating_sub(2));
        }
    }
    State { processors: processors as u8, count: count as u8, mode, entries }
}

/// Shares of so many tasks that total at most so many processors, or just as many.
fn shares(random: &mut Random, processors: usize, count: usize) -> Vec<u8> {
    let mut shares = vec![0; count];
    let total = if random.once_in(2) { processors } else { random.within(0..=processors) };
    let few = random.within(1..=count);
    let at_once = *random.pick(&[PROCESSORS, 3]);
    let mut left = total;
    while left > 0 {
        let some = random.within(1..=left.min(at_once));
        shares[random.within(0..=few - 1)] += some as u8;
        left -= some;
    }
    for _ in 0..count {
        let (one, other) = (random.within(0..=count - 1), random.within(0..=count - 1));
        shares.swap(one, other);
    }
    shares
}

/// A random sound state with the most processors. Of its low tasks some have no critical share, some their typical one
/// and some another; many tasks may be released.
pub fn keeping(random: &mut Random) -> State {
    let mut state = State { processors: PROCESSORS as u8, ..sound(random) };
    let own = &mut state.entries[..usize::from(state.count)];
    let left = |share: fn(&Entry) -> u8| PROCESSORS as u8 - own.iter().map(share).sum::<u8>();
    let (mut typical, mut critical) = (left(|entry| entry.typical), left(|entry| entry.critical));
    for entry in own {
        let more = typical.min(random.within(0..=3) as u8);
        entry.typical += more;
        typical -= more;
        if !entry.is_high() {
            let (room, other) = (critical + entry.critical, random.within(1..=3) as u8);
            entry.critical = room.min(*random.pick(&[0, entry.typical, other]));
            critical = room - entry.critical;
        }
        if random.once_in(3) {
            (entry.alive, entry.age) = (false, entry.deadline);
        }
    }
    state
}

/// A random sound critical state in which no high job is alive.
pub fn without_high_jobs(random: &mut Random) -> State {
    let state = if random.once_in(2) { sound(random) } else { keeping(random) };
    let mut state = State { mode: Mode::Critical, ..state };
    for entry in &mut state.entries[..usize::from(state.count)] {
        entry.alive = entry.alive && !entry.is_high();
    }
    state
}

/// A random sound critical state with high jobs, one or more, whose nodes that have not ended all run.
pub fn with_last_nodes(random: &mut Random) -> State {
    loop {
        let mut state = without_high_jobs(random);
        for entry in &mut state.entries[..usize::from(state.count)] {
            if entry.is_high() && entry.critical > 0 && !random.once_in(3) {
                (entry.alive, entry.ended) = (true, all_but_some(random, entry));
            }
        }
        if !state.high_jobs().is_empty() {
            return state;
        }
    }
}

/// All nodes but some that may run together: none precedes another, and the critical share is enough for them.
fn all_but_some(random: &mut Random, entry: &Entry) -> Nodes {
    let k = usize::from(entry.nodes);
    let mut left: Vec<usize> = Vec::new();
    for _ in 0..random.within(1..=entry.critical.into()) {
        let v = random.within(0..=k - 1);
        if left.iter().all(|&u| u != v && !entry.preceding[u][v] && !entry.preceding[v][u]) {
            left.push(v);
        }
    }
    std::array::from_fn(|v| v < k && !left.contains(&v))
}

fn entry(random: &mut Random, form: Form, typical: u8, critical: u8) -> Entry {
    let k = random.skewed(1..=NODES);
    let preceding = preceding(random, k);
    let deadline = random.skewed(1..=form.limit() as usize);
    let virtual_deadline = random.skewed(0..=deadline);
    let near = random.within(virtual_deadline.saturating_sub(2)..=deadline.min(virtual_deadline + 1));
    let any = random.skewed(0..=deadline);
    let age = *random.pick(&[near, deadline, any]);
    let ended = ended(random, &preceding, k);
    let all_ended = ended[..k].iter().all(|&ended| ended);
    Entry {
        level: level_byte(*random.pick(&[Level::Low, Level::High]), form),
        nodes: k as u8,
        typical,
        critical,
        alive: !all_ended && !random.once_in(3),
        deadline: deadline as u32,
        virtual_deadline: virtual_deadline as u32,
        age: age as u32,
        ended,
        preceding,
    }
}

/// Lawful masks of k nodes, then noise.
fn preceding(random: &mut Random, k: usize) -> [Nodes; NODES] {
    let style = random.within(0..=3);
    std::array::from_fn(|v| {
        let any = random.word() as u32;
        let sparse = any & random.word() as u32 & random.word() as u32;
        let below = (1 << v) - 1;
        nodes(match style {
            _ if v >= k => any,
            0 => 0,
            1 => below & sparse,
            2 => below & any,
            _ => *random.pick(&[0, below, below & !(below >> 1), below & sparse]),
        })
    })
}

/// Ended nodes below k: often such as calls leave them, else any.
fn ended(random: &mut Random, preceding: &[Nodes; NODES], k: usize) -> Nodes {
    let mut ended = [false; NODES];
    let any = random.once_in(3);
    let odds = random.within(1..=4);
    for v in 0..k {
        let open = (0..v).all(|j| !preceding[v][j] || ended[j]);
        ended[v] = (any || open) && !random.once_in(odds);
    }
    ended
}

fn noise(random: &mut Random) -> Entry {
    let mut byte = || random.word() as u8;
    let (level, nodes_, typical, critical) = (byte(), byte(), byte(), byte());
    let mut word = || random.word() as u32;
    let (deadline, virtual_deadline, age, ended) = (word(), word(), word(), nodes(word()));
    let preceding = std::array::from_fn(|_| nodes(word()));
    let alive = random.once_in(2);
    Entry { level, nodes: nodes_, typical, critical, alive, deadline, virtual_deadline, age, ended, preceding }
}

/// The state with every bit set of what no call reads: as far from a lawful entry as there is.
pub fn with_ones(mut state: State) -> State {
    let all = [true; NODES];
    let (own, others) = state.entries.split_at_mut(state.count.into());
    for entry in own {
        entry.preceding[entry.nodes.into()..].fill(all);
    }
    others.fill(Entry {
        level: u8::MAX,
        nodes: u8::MAX,
        typical: u8::MAX,
        critical: u8::MAX,
        alive: true,
        deadline: u32::MAX,
        virtual_deadline: u32::MAX,
        age: u32::MAX,
        ended: all,
        preceding: [all; NODES],
    });
    state
}

/// Each way in which a state may be unsound.
pub const FAULTS: [Fault; 12] = [
    Fault::Processors,
    Fault::Count,
    Fault::Level,
    Fault::NodeCount,
    Fault::Mask,
    Fault::Deadline,
    Fault::VirtualDeadline,
    Fault::TypicalTotal,
    Fault::CriticalTotal,
    Fault::Age,
    Fault::EndedNode,
    Fault::AliveButEnded,
];

/// A random state with this fault alone, at one entry where it is an entry's.
pub fn unsound(random: &mut Random, fault: Fault) -> State {
    let mut state = sound(random);
    let at = random.within(0..=usize::from(state.count) - 1);
    let entry = &mut state.entries[at];
    let k = usize::from(entry.nodes);
    match fault {
        Fault::Processors => {
            state.processors = outside(random, PROCESSORS);
            if state.processors == 0 {
                for entry in &mut state.entries {
                    (entry.typical, entry.critical) = (0, 0);
                }
            }
        }
        Fault::Count => {
            state.count = outside(random, ENTRIES);
            if state.count > 0 {
                state.entries = sound_entries(random, state.processors.into(), ENTRIES);
            }
        }
        Fault::Level => entry.level = unlawful_level(random),
        Fault::NodeCount => {
            entry.nodes = outside(random, NODES);
            if entry.nodes == 0 {
                (entry.alive, entry.ended) = (false, [false; NODES]);
            } else {
                for (v, preceding) in entry.preceding.iter_mut().enumerate().skip(k) {
                    preceding[v..].fill(false);
                }
            }
        }
        Fault::Mask => {
            let v = random.within(0..=k - 1);
            let bit = random.skewed(v..=NODES - 1);
            entry.preceding[v][bit] = true;
        }
        Fault::Deadline => {
            entry.deadline = beyond(random, entry.level);
            entry.virtual_deadline = entry.virtual_deadline.min(entry.deadline);
            entry.age = entry.age.min(entry.deadline);
        }
        Fault::VirtualDeadline => {
            entry.virtual_deadline = above(random, entry.deadline);
        }
        Fault::Age => {
            entry.age = above(random, entry.deadline);
        }
        Fault::TypicalTotal => too_many(random, &mut state, |entry| &mut entry.typical),
        Fault::CriticalTotal => too_many(random, &mut state, |entry| &mut entry.critical),
        Fault::EndedNode => {
            let k = k.min(NODES - 1);
            entry.nodes = k as u8;
            let all_ended = entry.ended[..k].iter().all(|&ended| ended);
            entry.alive = entry.alive && !all_ended;
            entry.ended[k..].fill(false);
            let v = random.skewed(k..=NODES - 1);
            entry.ended[v] = true;
        }
        Fault::AliveButEnded => {
            entry.alive = true;
            entry.ended[..k].fill(true);
        }
    }
    state
}

/// So many sound entries for so many processors, in the forms of one sheet.
fn sound_entries(random: &mut Random, processors: usize, count: usize) -> Vec<Entry> {
    let typical = shares(random, processors, count);
    let critical = shares(random, processors, count);
    let forms = forms(random);
    let of_task = |i: usize| {
        let form = *random.pick(forms);
        entry(random, form, typical[i], critical[i])
    };
    (0..count).map(of_task).collect()
}

/// A level that is none, near those that are.
fn unlawful_level(random: &mut Random) -> u8 {
    let any = random.within(34..=255) as u8;
    *random.pick(&[2, 3, 15, 18, 32, 33, 255, any])
}

/// 0, or more than the most.
fn outside(random: &mut Random, most: usize) -> u8 {
    if random.once_in(4) {
        0
    } else {
        random.skewed(most + 1..=255) as u8
    }
}

/// 0, or more than the limit of a lawful level.
fn beyond(random: &mut Random, level: u8) -> u32 {
    let limit = of_level_byte(level).map_or(0, |(_, form)| form.limit());
    let lawful_in_two_bytes = limit.next_multiple_of(65_536) + 1;
    let any = random.within(limit as usize + 1..=u32::MAX as usize) as u32;
    *random.pick(&[0, limit + 1, lawful_in_two_bytes, u32::MAX, any])
}

fn above(random: &mut Random, deadline: u32) -> u32 {
    let any = random.within(deadline as usize + 1..=u32::MAX as usize) as u32;
    *random.pick(&[deadline + 1, deadline + 65_536, u32::MAX, any])
}

/// Makes a state's shares total more than M: by one, by much, or, where there are entries enough, by 256.
fn too_many(random: &mut Random, state: &mut State, share: fn(&mut Entry) -> &mut u8) {
    let count = usize::from(state.count);
    let most = usize::from(state.processors);
    let own = &mut state.entries[..count];
    let total: usize = own.iter_mut().map(|entry| usize::from(*share(entry))).sum();
    let mut missing = match random.within(0..=3) {
        0 | 1 => most + 1 - total,
        2 => random.within(most + 1 - total..=255),
        _ => 256,
    };
    // The first entry has room for all that one needs: its share is at most M, so at most 64.
    for entry in own {
        let some = missing.min(255 - usize::from(*share(entry)));
        *share(entry) += some as u8;
        missing -= some;
    }
}

/// A mask of reports for a task: often the nodes that run, or some of them.
pub fn report(random: &mut Random, state: &State, task: usize) -> u32 {
    let running = state.running(task);
    let style = random.within(0..=2);
    let keep = |random: &mut Random| match style {
        0 => true,
        1 => random.once_in(2),
        _ => false,
    };
    running.into_iter().filter(|_| keep(random)).map(|v| 1 << v).sum()
}

/// A node of a task that does not run, as a mask.
pub fn not_running(random: &mut Random, state: &State, task: usize) -> Option<u32> {
    let running = state.running(task);
    let k = usize::from(state.entries[task].nodes);
    let others: Vec<usize> = (0..NODES).filter(|v| !running.contains(v)).collect();
    let below: Vec<usize> = others.iter().copied().filter(|&v| v < k).collect();
    match (others.as_slice(), below.as_slice()) {
        ([], _) => None,
        (others, []) => Some(1 << random.pick(others)),
        (others, below) => {
            let among = if random.once_in(2) { others } else { below };
            Some(1 << random.pick(among))
        }
    }
}

#[cfg(test)]
mod tests {
    use super::*;

    #[test]
    fn sound_states_are_sound_and_each_fault_stands_alone() {
        let mut random = Random::of_test("states");
        for _ in 0..2_000 {
            let state = sound(&mut random);
            assert_eq!(state.faults(), []);
            let running: usize = (0..usize::from(state.count)).map(|task| state.running(task).len()).sum();
            assert!(running <= usize::from(state.processors));
            assert_eq!(keeping(&mut random).faults(), []);
            assert_eq!(without_high_jobs(&mut random).faults(), []);
            let last = with_last_nodes(&mut random);
            assert_eq!(last.faults(), []);
            for task in last.high_jobs() {
                let left = last.entries[task].ended[..last.entries[task].nodes.into()].iter().filter(|ended| !**ended);
                assert_eq!(last.running(task).len(), left.count());
            }
            for fault in FAULTS {
                assert_eq!(unsound(&mut random, fault).faults(), [fault]);
            }
        }
    }
}
