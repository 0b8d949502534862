//! The planner in plain Rust, written from the specification.
use crate::sheet::{is_high, read, refusal, Answer, Figures, Refusal, Task, TaskSet};
use dibwunek_tests::reference::answers::NO_TASK;
use dibwunek_tests::reference::planner::TASK_BYTES;
use dibwunek_tests::reference::reader::TASKS;

/// The least critical share at each typical share 1 to 64; M + 1 for none.
type Offer = [u8; 64];
/// The least critical total at each typical total 0 to 64; M + 1 for none.
type Totals = [u8; 65];

#[derive(Clone, Copy, Default)]
pub struct Share {
    pub typical: u8,
    pub critical: u8,
}

fn offer(task: &Task, m: u8) -> Offer {
    let mut offer = [m + 1; 64];
    if is_high(task.level) {
        for a in 1..=m {
            if let Some(b) = least_critical(&task.figures, a, m) {
                offer[usize::from(a) - 1] = b;
            }
        }
    } else if let Some(a) = low_share(&task.figures, m) {
        offer[usize::from(a) - 1] = 0;
    }
    offer
}

fn low_share(f: &Figures, m: u8) -> Option<u8> {
    let room = f.d.checked_sub(f.ln).filter(|&room| room > 0)?;
    let share = (f.cn - f.ln).div_ceil(room);
    (1..=u32::from(m)).contains(&share).then_some(share as u8)
}

/// The first b from a to m that passes. What is needed is at most CO·a·b, so with figures up to 1,000,000 and shares up to
/// 64 every sum is below 2^32.
fn least_critical(f: &Figures, a: u8, m: u8) -> Option<u8> {
    let typical = u32::from(a);
    let w = (f.co - f.cn) - (f.lo - f.ln);
    let work = f.cn - f.ln;
    let extra = (f.ln * typical).min(w);
    (a..=m).find(|&b| {
        let b = u32::from(b);
        f.d * typical * b >= work * b + w * typical + f.lo * typical * b + extra * (b - typical)
    })
}

/// The totals of a task and of the tasks after it, which have the totals rest: lowered by one typical share after the other.
/// Before the rest's totals stand 63 numbers above M, so that every share lowers all 64 totals.
fn totals_with(offer: &Offer, rest: &Totals, m: u8) -> Totals {
    let mut after = [m + 1; 128];
    after[63..].copy_from_slice(rest);
    let mut totals = [m + 1; 65];
    for a in 1..=usize::from(m) {
        for (total, left) in totals[1..].iter_mut().zip(&after[64 - a..][..64]) {
            *total = (*total).min(offer[a - 1] + left);
        }
    }
    totals
}

/// Refusal 8, and the shares of the tasks with these offers.
fn select(offers: &[Offer], m: u8) -> Result<[Share; TASKS], Refusal> {
    let n = offers.len();
    let end = usize::from(m);
    let mut totals = [[m + 1; 65]; TASKS + 1];
    totals[n][0] = 0;
    for i in (0..n).rev() {
        totals[i] = totals_with(&offers[i], &totals[i + 1], m);
    }
    let least = totals[0][..=end].iter().copied().min().unwrap_or(m + 1);
    if least > m {
        return Err(Refusal { number: 8, task: NO_TASK });
    }
    let mut left = totals[0].iter().position(|&total| total == least).unwrap_or(0);
    let mut shares = [Share::default(); TASKS];
    for (i, offer) in offers.iter().enumerate() {
        let (total, rest) = (totals[i][left], &totals[i + 1]);
        let a = (1..=left).find(|&a| offer[a - 1] + rest[left - a] == total).unwrap_or(left);
        shares[i] = Share { typical: a as u8, critical: offer[a - 1] };
        left -= a;
    }
    Ok(shares)
}

/// Keeps low tasks on the processors that the high shares leave over: always the least share, of equal ones the first,
/// for as long as it fits.
fn keep_low(tasks: &[Task], shares: &mut [Share], m: u8) {
    let mut left = m - shares.iter().map(|share| share.critical).sum::<u8>();
    loop {
        let rest =
            tasks.iter().zip(shares.iter_mut()).filter(|(task, share)| !is_high(task.level) && share.critical == 0);
        match rest.map(|(_, share)| share).min_by_key(|share| share.typical) {
            Some(share) if share.typical <= left => {
                share.critical = share.typical;
                left -= share.typical;
            }
            _ => return,
        }
    }
}

/// Refusals 7 and 8, and the shares that are chosen, with those of the kept tasks.
pub fn choose(set: &TaskSet) -> Result<[Share; TASKS], Refusal> {
    let m = set.processors;
    let mut offers = [[0; 64]; TASKS];
    for (i, task) in set.tasks().iter().enumerate() {
        offers[i] = offer(task, m);
        if offers[i].iter().all(|&b| b > m) {
            return Err(refusal(7, i));
        }
    }
    let n = usize::from(set.count);
    let mut shares = select(&offers[..n], m)?;
    keep_low(set.tasks(), &mut shares[..n], m);
    Ok(shares)
}

/// V and the remainder of the division behind it.
pub fn virtual_deadline(task: &Task, a: u8) -> (u32, u8) {
    let f = &task.figures;
    if is_high(task.level) {
        let a = u32::from(a);
        (f.ln + (f.cn - f.ln) / a, ((f.cn - f.ln) % a) as u8)
    } else {
        (0, 0)
    }
}

fn write_blocks(bytes: &mut [u8], lengths: impl Iterator<Item = u8>) {
    let mut offset = 0;
    for (pair, length) in bytes.chunks_exact_mut(2).zip(lengths) {
        pair.copy_from_slice(&[offset, length]);
        offset += length;
    }
}

pub fn plan(sheet: &[u8], buffer: &mut [u8]) -> Answer {
    let set = read(sheet)?;
    let shares = choose(&set)?;
    let n = usize::from(set.count);
    let bytes = buffer.get_mut(..TASK_BYTES * n).ok_or(Refusal { number: 9, task: NO_TASK })?;
    let shares = &shares[..n];
    write_blocks(&mut bytes[..2 * n], shares.iter().map(|share| share.typical));
    write_blocks(&mut bytes[2 * n..4 * n], shares.iter().map(|share| share.critical));
    let (virtuals, remainders) = bytes[4 * n..].split_at_mut(4 * n);
    for (((four, left), task), share) in virtuals.chunks_exact_mut(4).zip(remainders).zip(set.tasks()).zip(shares) {
        let (ticks, remainder) = virtual_deadline(task, share.typical);
        four.copy_from_slice(&ticks.to_le_bytes());
        *left = remainder;
    }
    Ok(())
}
