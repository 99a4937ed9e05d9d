use core::fmt;
use fcanon_sys::fcanon_find_answer_text;

/// One of the 52 cards. It is displayed as in `KS`.
#[derive(Clone, Copy, PartialEq, Eq, PartialOrd, Ord, Hash, Debug)]
pub struct Card(u8);

impl Card {
    /// 1, the ace, to 13, the king.
    #[must_use]
    pub fn rank(self) -> u8 {
        self.0 / 4 + 1
    }

    /// 0 clubs, 1 diamonds, 2 hearts, 3 spades.
    #[must_use]
    pub fn suit(self) -> u8 {
        self.0 % 4
    }
}

impl fmt::Display for Card {
    fn fmt(&self, f: &mut fmt::Formatter) -> fmt::Result {
        let (rank, suit) = (usize::from(self.0 / 4), usize::from(self.0 % 4));
        write!(f, "{}{}", &"A23456789TJQK"[rank..=rank], &"CDHS"[suit..=suit])
    }
}

/// Declares each reason with the number that `fcanon.h` gives it.
macro_rules! reasons {
    ($($name:ident = $answer:literal,)*) => {
        /// Why a call did not do what it was asked for. `fcanon.h` and `fcanon_runs.h` say it of each at
        /// length.
        #[derive(Clone, Copy, PartialEq, Eq, Hash, Debug)]
        #[non_exhaustive]
        #[allow(missing_docs)]
        pub enum Reason {
            $($name,)*
            /// The text lacks this card.
            MissingCard(Card),
            /// A number that this crate does not know.
            Other(u32),
        }

        impl Reason {
            #[allow(clippy::cast_possible_truncation)] // there are 52 of them
            fn of(answer: u32) -> Reason {
                match answer {
                    $($answer => Reason::$name,)*
                    FIRST_MISSING_CARD..=LAST_MISSING_CARD => {
                        Reason::MissingCard(Card((answer - FIRST_MISSING_CARD) as u8))
                    }
                    _ => Reason::Other(answer),
                }
            }

            /// The number in `fcanon.h`.
            #[must_use]
            pub fn answer(self) -> u32 {
                match self {
                    $(Reason::$name => $answer,)*
                    Reason::MissingCard(Card(number)) => FIRST_MISSING_CARD + u32::from(number),
                    Reason::Other(answer) => answer,
                }
            }
        }
    };
}

// tools/tables wrote this from fcanon.h, to the next empty line.
reasons! {
    NoGame = 1,
    NoPassage = 2,
    NoMove = 3,
    NoBoard = 4,
    NoOther = 5,
    Apart = 6,
    NoDeal = 7,
    NoColumn = 8,
    NoRoom = 9,
    NoTask = 10,
    NoFormat = 11,
    OutOfMemory = 12,
    InputTooLarge = 13,
    InputNotReadToItsEnd = 14,
    NotCanonical = 16,
    NotAscending = 17,
    Won = 18,
    Open = 19,
    NotClosed = 20,
    NotAmong = 21,
    SamePile = 32,
    EmptySource = 33,
    TargetTaken = 34,
    KingsOnly = 35,
    NotBuilding = 36,
    NotNext = 37,
    NoRun = 38,
    OverCapacity = 39,
    WrongCount = 40,
    RepeatedLine = 64,
    TooManyColumns = 65,
    TooManyCells = 66,
    BadCard = 67,
    BadFoundation = 68,
    RepeatedCard = 69,
}
/// The words of what whole commands alone answer.
const RUN_FAULTS: [(u32, &str); 5] = [
    (10, "no such task"),
    (11, "no such format"),
    (12, "out of memory"),
    (13, "input too large"),
    (14, "input not read to its end"),
];
const FIRST_MISSING_CARD: u32 = 128;
const LAST_MISSING_CARD: u32 = 179;

impl fmt::Display for Reason {
    fn fmt(&self, f: &mut fmt::Formatter) -> fmt::Result {
        if let Some((_, words)) = RUN_FAULTS.iter().find(|it| it.0 == self.answer()) {
            return f.write_str(words);
        }
        let mut text = core::ptr::null();
        // SAFETY: there is room for the place of the words.
        unsafe { fcanon_find_answer_text(self.answer(), &mut text) };
        // SAFETY: the words stay, and a byte 0 comes after them.
        let bytes = (0..).map(|at| unsafe { *text.add(at) }).take_while(|&byte| byte != 0);
        bytes.into_iter().try_for_each(|byte| write!(f, "{}", char::from(byte)))?;
        match self {
            Reason::MissingCard(card) => write!(f, " {card}"),
            _ => Ok(()),
        }
    }
}

/// Why a call did not do what it was asked for, and in a text also where.
#[derive(Clone, Copy, PartialEq, Eq, Hash, Debug)]
pub struct Error {
    /// Why.
    pub reason: Reason,
    /// The place of a text's first fault, in bytes from 0; or which board of many is at fault.
    pub place: Option<usize>,
}

impl Error {
    /// The error with the place that a call wrote, if it did.
    pub(crate) fn at(self, place: usize) -> Error {
        Error { place: (place != usize::MAX).then_some(place), ..self }
    }
}

impl fmt::Display for Error {
    fn fmt(&self, f: &mut fmt::Formatter) -> fmt::Result {
        match self.place {
            Some(place) => write!(f, "{} at {place}", self.reason),
            None => write!(f, "{}", self.reason),
        }
    }
}

#[cfg(feature = "std")]
impl std::error::Error for Error {}

impl From<Reason> for Error {
    fn from(reason: Reason) -> Error {
        Error { reason, place: None }
    }
}

/// What a call wrote over `value`, or the error that its answer says.
pub(crate) fn made<T>(mut value: T, call: impl FnOnce(&mut T) -> u32) -> Result<T, Error> {
    match call(&mut value) {
        0 => Ok(value),
        answer => Err(Reason::of(answer).into()),
    }
}
