//! Holds the proved reader, Plan and Start to the independent ones, and counts the reader's answers.
use crate::harness::boundary;
use crate::harness::counts::hold;
use crate::harness::proved::{self, planning, starting, TaskSet, FIRST_MASK};
use crate::makers::random::{self, Random};
use crate::reference::answers::{Answer, Refusal, Reply, NO_TASK};
use crate::reference::planner::plan_into;
use crate::reference::reader::{self, level_byte, Sheet};

/// The answer that a reading stands for.
pub fn answer(reading: &Result<Sheet, Refusal>) -> Answer {
    match reading {
        Ok(_) => (0, NO_TASK),
        Err(refusal) => refusal.answer(),
    }
}

/// The task set that a reading stands for: zero where nothing was read.
pub fn task_set(reading: &Result<Sheet, Refusal>) -> TaskSet {
    let mut set = TaskSet::ZERO;
    let Ok(sheet) = reading else { return set };
    set.processors = sheet.processors.into();
    set.count = sheet.tasks.len() as u32;
    for (fields, task) in set.tasks.iter_mut().zip(&sheet.tasks) {
        let f = &task.figures;
        let level = level_byte(task.level, task.form);
        let head = [level.into(), task.masks.len() as u32, f.d, f.cn, f.ln, f.co, f.lo];
        fields[..FIRST_MASK].copy_from_slice(&head);
        fields[FIRST_MASK..][..task.masks.len()].copy_from_slice(&task.masks);
    }
    set
}

/// Compares the two planners on a sheet and a buffer of random bytes, and gives their answer.
pub fn plans_agree(sheet: &[u8], length: usize, random: &mut Random) -> Reply {
    let before = random.bytes(length);
    let (reply, after) = plan_into(sheet, &before);
    let mut buffer = before;
    let proved = planning::plan(sheet, &mut buffer);
    hold(&(proved, buffer), &(reply, after), || format!("the sheet {sheet:?} and {length} bytes of buffer"));
    reply
}

/// Compares the two Starts on a sheet, the answer and every word of the line, and gives their answer.
pub fn starts_agree(sheet: &[u8]) -> Reply {
    let started = boundary::start(sheet);
    hold(&starting::start(sheet), &started, || format!("the sheet {sheet:?}"));
    started.0
}

/// The answers of one test, by number.
pub struct Tally {
    test: &'static str,
    counts: [usize; 7],
    whole_each: usize,
}

impl Tally {
    /// A tally that compares the answer on every sheet, and the whole task set on each `whole_each`-th.
    pub fn new(test: &'static str, whole_each: usize) -> Tally {
        Tally { test, counts: [0; 7], whole_each }
    }

    /// Compares the two readers on a sheet, and gives their answer.
    pub fn check(&mut self, sheet: &[u8]) -> Answer {
        let reading = reader::read(sheet);
        let answer = answer(&reading);
        self.hold(sheet, "proved and independent answer", &proved::read(sheet), &answer);
        self.counts[usize::from(answer.0)] += 1;
        if self.total() % self.whole_each == 0 {
            self.hold(sheet, "proved and independent task set", &proved::task_set(sheet), &task_set(&reading));
        }
        answer
    }

    /// Compares the two readers on a sheet, and both with the answer that it must get.
    pub fn expect(&mut self, sheet: &[u8], expected: Answer) {
        let answer = self.check(sheet);
        self.hold(sheet, "answer and the one that the specification gives", &answer, &expected);
    }

    /// Prints the counts, and asks for at least `least` of each of the numbers.
    pub fn close(self, numbers: &[usize], least: usize) {
        let counts: Vec<String> =
            self.counts.iter().enumerate().map(|(number, count)| format!("{number}: {count}")).collect();
        println!("{}: {} sheets, by answer: {}", self.test, self.total(), counts.join(", "));
        for &number in numbers {
            let count = self.counts[number];
            assert!(count >= least, "{}: only {count} sheets got {number} (seed {})", self.test, random::seed());
        }
    }

    fn total(&self) -> usize {
        self.counts.iter().sum()
    }

    fn hold<T: PartialEq + std::fmt::Debug>(&self, sheet: &[u8], what: &str, left: &T, right: &T) {
        assert!(
            left == right,
            "{}, seed {}: {what} differ:\n{left:?}\n{right:?}\non the {} bytes {sheet:?}",
            self.test,
            random::seed(),
            sheet.len(),
        );
    }
}
