//! Lengths of a job's nodes, which belong to the world: their work and span, and lengths that use budgets up.
use crate::makers::random::Random;

/// Work C and critical-path length L, of lengths or allowed to them.
#[derive(Clone, Copy, Debug, PartialEq, Eq)]
pub struct Budget {
    pub work: u32,
    pub span: u32,
}

impl Budget {
    /// What the nodes with these masks and lengths need.
    pub fn of(masks: &[u32], lengths: &[u32]) -> Budget {
        let work = lengths.iter().fold(0, |sum: u32, &length| sum.saturating_add(length));
        Budget { work, span: ending(masks, lengths).into_iter().max().unwrap_or(0) }
    }

    pub fn allows(self, masks: &[u32], lengths: &[u32]) -> bool {
        let needs = Budget::of(masks, lengths);
        lengths.iter().all(|&length| length >= 1) && needs.work <= self.work && needs.span <= self.span
    }
}

/// For each node the longest chain that ends at it.
fn ending(masks: &[u32], lengths: &[u32]) -> Vec<u32> {
    let mut longest = vec![0; masks.len()];
    for v in 0..masks.len() {
        let before = (0..v).filter(|j| masks[v] >> j & 1 == 1).map(|j| longest[j]).max().unwrap_or(0);
        longest[v] = lengths[v].saturating_add(before);
    }
    longest
}

/// For each node the longest chain through it.
fn through(masks: &[u32], lengths: &[u32]) -> Vec<u32> {
    let mut starting = vec![0; masks.len()];
    for v in (0..masks.len()).rev() {
        let after = (v + 1..masks.len()).filter(|&w| masks[w] >> v & 1 == 1).map(|w| starting[w]).max().unwrap_or(0);
        starting[v] = lengths[v] + after;
    }
    let ending = ending(masks, lengths);
    (0..masks.len()).map(|v| ending[v] + starting[v] - lengths[v]).collect()
}

/// How lengths are raised until the budgets allow no more.
#[derive(Clone, Copy, Debug)]
pub enum Filling {
    /// Random nodes by random amounts.
    Random,
    /// All nodes alike, as far as may be.
    Even,
    /// The last nodes first, each as far as may be, so that a long chain waits for nodes with lower numbers; then the
    /// others alike.
    LastFirst,
}

/// Lengths of at least 1 that no node's can exceed within the budgets, or none where not even ones are allowed.
pub fn filled(random: &mut Random, masks: &[u32], budget: Budget, filling: Filling) -> Option<Vec<u32>> {
    let k = masks.len();
    let mut lengths = vec![1; k];
    if !budget.allows(masks, &lengths) {
        return None;
    }
    if let Filling::LastFirst = filling {
        for v in (0..k).rev().take(random.within(1..=k)) {
            lengths[v] += room(masks, &lengths, budget, v);
        }
    }
    loop {
        let rooms: Vec<u32> = (0..k).map(|v| room(masks, &lengths, budget, v)).collect();
        let open: Vec<usize> = (0..k).filter(|&v| rooms[v] > 0).collect();
        if open.is_empty() {
            return Some(lengths);
        }
        let coarse = 1 + (budget.work - lengths.iter().sum::<u32>()) / 256;
        match filling {
            Filling::Random => {
                let v = *random.pick(&open);
                lengths[v] += random.within(1..=rooms[v] as usize) as u32;
            }
            Filling::Even | Filling::LastFirst => {
                for v in open {
                    lengths[v] += coarse.min(room(masks, &lengths, budget, v));
                }
            }
        }
    }
}

/// How much longer a node may be.
fn room(masks: &[u32], lengths: &[u32], budget: Budget, v: usize) -> u32 {
    let work = budget.work - lengths.iter().sum::<u32>();
    work.min(budget.span - through(masks, lengths)[v])
}

#[cfg(test)]
mod tests {
    use super::*;
    use crate::makers::sheets;

    /// The longest chain from a node on, each chain looked at by itself.
    fn longest_from(masks: &[u32], lengths: &[u32], v: usize) -> u32 {
        let next = (v + 1..masks.len()).filter(|&w| masks[w] >> v & 1 == 1);
        lengths[v] + next.map(|w| longest_from(masks, lengths, w)).max().unwrap_or(0)
    }

    #[test]
    fn filled_lengths_keep_the_budgets_and_leave_no_room() {
        let mut random = Random::of_test("filled lengths");
        let mut made = 0;
        for _ in 0..3_000 {
            let mut masks = sheets::valid(&mut random).tasks[0].masks.clone();
            masks.truncate(10);
            let span = random.within(1..=40) as u32;
            let budget = Budget { work: span + random.within(0..=60) as u32, span };
            let filling = *random.pick(&[Filling::Random, Filling::Even, Filling::LastFirst]);
            let Some(lengths) = filled(&mut random, &masks, budget, filling) else { continue };
            made += 1;
            let span = (0..masks.len()).map(|v| longest_from(&masks, &lengths, v)).max();
            assert_eq!(Some(Budget::of(&masks, &lengths).span), span);
            assert!(budget.allows(&masks, &lengths));
            for v in 0..masks.len() {
                let mut longer = lengths.clone();
                longer[v] += 1;
                assert!(!budget.allows(&masks, &longer));
            }
        }
        assert!(made >= 1_000);
    }
}
