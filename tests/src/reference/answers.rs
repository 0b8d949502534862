//! The answers of the specification's section S9.

/// The cause of a refusal; its value is the number of its clause, or one of the interface's own.
#[derive(Clone, Copy, Debug, PartialEq, Eq)]
pub enum Cause {
    Header = 1,
    Directory = 2,
    Record = 3,
    Figures = 4,
    Mask = 5,
    NotHeavy = 6,
    NoShare = 7,
    NoFit = 8,
    PlanBuffer = 9,
    NotSound = 10,
    NoSuchTask = 11,
    NotKept = 12,
    NotDue = 13,
    ReportCount = 14,
    NotRunning = 15,
    BoardBuffer = 16,
    /// The text, the terms or the buffer of an import.
    Text = 17,
    Graph = 18,
    Outside = 19,
    /// A line that is no state (S13.5).
    NoState = 100,
}

/// The task of an answer that names none.
pub const NO_TASK: u8 = 255;

/// A refusal, with the task that it names.
#[derive(Clone, Copy, Debug, PartialEq, Eq)]
pub struct Refusal {
    pub cause: Cause,
    pub task: Option<usize>,
}

impl Refusal {
    pub fn of(cause: Cause, task: usize) -> Refusal {
        Refusal { cause, task: Some(task) }
    }

    /// A refusal that names no task.
    pub fn whole(cause: Cause) -> Refusal {
        Refusal { cause, task: None }
    }

    /// Its number and task.
    pub fn answer(self) -> Answer {
        (self.cause as u8, self.task.map_or(NO_TASK, |task| task as u8))
    }
}

/// Number and task of an answer; accepted is (0, 255).
pub type Answer = (u8, u8);

/// What a call answers.
#[derive(Clone, Copy, Debug, PartialEq, Eq, PartialOrd, Ord)]
pub enum Reply {
    /// Accepted: (0, 255); a tick ran.
    Done,
    /// A tick turned the state critical, because of this task.
    Switched(u8),
    /// A tick turned the state typical again.
    Returned,
    /// Refused, with its number and its task, 255 where it names none.
    Refused(u8, u8),
}

impl Reply {
    /// The reply that an exported function's word stands for: number + 256 * task; a switch adds 65,536, and a return
    /// 131,072.
    pub fn of_word(word: u32) -> Reply {
        match word.to_le_bytes() {
            [0, NO_TASK, 0, 0] => Reply::Done,
            [number @ (1..=19 | 100), task, 0, 0] => Reply::Refused(number, task),
            [0, task @ 0..=15, 1, 0] => Reply::Switched(task),
            [0, NO_TASK, 2, 0] => Reply::Returned,
            _ => panic!("{word} is not the word of an answer"),
        }
    }

    /// The number of a refusal; 0 where there is none.
    pub fn number(self) -> usize {
        match self {
            Reply::Refused(number, _) => number.into(),
            _ => 0,
        }
    }
}

impl From<Refusal> for Reply {
    fn from(refusal: Refusal) -> Reply {
        let (number, task) = refusal.answer();
        Reply::Refused(number, task)
    }
}

#[cfg(test)]
mod tests {
    use super::*;

    #[test]
    fn words_of_answers() {
        assert_eq!(Reply::of_word(65_280), Reply::Done);
        assert_eq!(Reply::of_word(15 + 256 * 3), Reply::Refused(15, 3));
        assert_eq!(Reply::of_word(65_536 + 256 * 3), Reply::Switched(3));
        assert_eq!(Reply::of_word(131_072 + 65_280), Reply::Returned);
    }
}
