//! Two operators and one head: whose words are whose, and a word passed on by
//! the controller.

use crate::raw;
use crate::state::{Outcome, State};
use crate::text::operator_refusal;

/// One of the two operators whose words the controller passes on; each with the
/// number of its group in the C interface.
#[derive(Clone, Copy, Debug, PartialEq, Eq)]
pub enum Operator {
    /// Gives the CCD words.
    Ccd = 0,
    /// Gives the infrared words.
    Infrared = 1,
}

/// Whose words a kind's words are; each with its number in the C interface.
#[derive(Clone, Copy, Debug, PartialEq, Eq)]
pub enum Group {
    /// The CCD operator's: WIN X1, Y1, X2 and Y2, CCD DELAY, CCD EXPO and CCD
    /// LAMP.
    Ccd = 0,
    /// The infrared operator's: all others.
    Infrared = 1,
    /// The controller's: START, HK, STOP and NOP, which go to the head by
    /// [`State::word`].
    Controller = 2,
}

/// What becomes of an operator's word.
#[derive(Clone, Copy, Debug, PartialEq, Eq)]
pub enum Passing {
    /// The head has got the word, and this is its outcome. It may still have
    /// ignored it: COVER while the cover moves, a mirror word out of turn.
    Passed(Outcome),
    /// Document 02's 51: the word is not allowed, not in the operator's group, or
    /// the head is busy. The state is as it was.
    NotPassed,
    /// Document 01's 21. The state is as it was.
    StateOutOfRange,
}

impl Operator {
    /// The group of the operator's words.
    pub fn group(self) -> Group {
        match self {
            Operator::Ccd => Group::Ccd,
            Operator::Infrared => Group::Infrared,
        }
    }

    /// The operator with this number of a group; an answer has no others.
    pub(crate) fn of(group: u32) -> Operator {
        match group {
            0 => Operator::Ccd,
            _ => Operator::Infrared,
        }
    }
}

impl Group {
    /// The group of a kind of word; none for a number that is no kind.
    ///
    /// ```
    /// use shabgozim::{kind, Group};
    ///
    /// assert_eq!(Group::of_kind(kind::CCD_LAMP), Some(Group::Ccd));
    /// assert_eq!(Group::of_kind(kind::IR_LAMP), Some(Group::Infrared));
    /// assert_eq!(Group::of_kind(kind::STOP), Some(Group::Controller));
    /// assert_eq!(Group::of_kind(kind::COUNT), None);
    /// ```
    pub fn of_kind(kind: u8) -> Option<Group> {
        match raw::group(kind) {
            0 => Some(Group::Ccd),
            1 => Some(Group::Infrared),
            2 => Some(Group::Controller),
            _ => None,
        }
    }
}

impl State {
    /// Passes an operator's word on to the head: exactly when it is allowed, in
    /// that operator's group, and the head is not busy. The head then gets it as
    /// by [`State::word`].
    ///
    /// ```
    /// use shabgozim::{place, Act, Operator, Outcome, Passing, State};
    ///
    /// let mut head = State::power_on();
    /// let taken = Passing::Passed(Outcome::Taken(Act::None));
    /// // CCD EXPO is the CCD operator's.
    /// assert_eq!(head.pass_on(Operator::Infrared, 0x9832), Passing::NotPassed);
    /// assert_eq!(head.pass_on(Operator::Ccd, 0x9832), taken);
    /// assert_eq!(head.numbers[place::CCD_EXPO], 50);
    /// ```
    pub fn pass_on(&mut self, operator: Operator, word: u16) -> Passing {
        Passing::of(raw::pass_on(&mut self.numbers, operator as u8, word))
    }
}

impl Passing {
    fn of(answer: u32) -> Passing {
        match answer {
            21 => Passing::StateOutOfRange,
            51 => Passing::NotPassed,
            outcome => Passing::Passed(Outcome::of(outcome)),
        }
    }

    /// Whether the head has got the word.
    pub fn is_passed(self) -> bool {
        matches!(self, Passing::Passed(_))
    }

    /// The documents' number of the refusal; 0 for a word that was passed on.
    pub fn number(self) -> u8 {
        match self {
            Passing::Passed(_) => 0,
            Passing::NotPassed => 51,
            Passing::StateOutOfRange => 21,
        }
    }

    /// Why the word was not passed on, in words: one line, without its newline.
    /// It is empty for a word that was passed on, and for a state out of range,
    /// for which the library has no line.
    ///
    /// ```
    /// use shabgozim::{Operator, State};
    ///
    /// // START is the controller's.
    /// let refused = State::power_on().pass_on(Operator::Ccd, 0x8000);
    /// assert!(refused.in_words().starts_with("refused 51: the word is not passed on: "));
    /// ```
    pub fn in_words(self) -> String {
        match self {
            Passing::NotPassed => operator_refusal(self.number()),
            Passing::Passed(_) | Passing::StateOutOfRange => String::new(),
        }
    }
}
