use crate::error::{Error, Reason};
use core::{fmt, ops::Deref, str::FromStr};
use fcanon_sys::{fcanon_move, fcanon_run_move, FCANON_MOST_MOVES};

/// A move of one card in standard notation, as `3a`: from a column `1` to `8` or a cell `a` to `g`
/// or `k`, to one of these or home, `h`.
#[derive(Clone, Copy, PartialEq, Eq, PartialOrd, Ord, Hash, Debug)]
#[repr(transparent)]
pub struct Move(pub(crate) fcanon_move);

/// A move of several cards, as `14v3`; without a number as many as the ranks say, and to an empty
/// column as many as can go.
#[derive(Clone, Copy, PartialEq, Eq, PartialOrd, Ord, Hash, Debug)]
pub struct Run(pub(crate) fcanon_run_move);

/// What a card is taken from or put on.
#[derive(Clone, Copy, PartialEq, Eq, PartialOrd, Ord, Hash, Debug)]
pub enum Pile {
    /// A column, 1 to 8.
    Column(u8),
    /// A cell, 1 to 4, or in Eight Off to 8.
    Cell(u8),
    /// Home, where all cards go at last.
    Home,
}

const CELLS: [u8; 8] = *b"abcdefgk";

impl Pile {
    fn of(letter: u8) -> Option<Pile> {
        match letter.to_ascii_lowercase() {
            digit @ b'1'..=b'8' => Some(Pile::Column(digit - b'0')),
            b'h' => Some(Pile::Home),
            cell => {
                (1..).zip(CELLS).find(|&(_, it)| it == cell).map(|(number, _)| Pile::Cell(number))
            }
        }
    }

    fn letter(self) -> Option<u8> {
        match self {
            Pile::Column(number @ 1..=8) => Some(b'0' + number),
            Pile::Cell(number @ 1..=8) => Some(CELLS[usize::from(number) - 1]),
            Pile::Home => Some(b'h'),
            _ => None,
        }
    }
}

impl Move {
    /// The move of a card from one pile to another.
    ///
    /// # Errors
    ///
    /// [`Reason::NoMove`], where there is no such pile, or the first is home.
    pub fn new(from: Pile, to: Pile) -> Result<Move, Error> {
        match (from.letter(), to.letter()) {
            (Some(first), Some(to)) if from != Pile::Home => {
                Ok(Move(fcanon_move { from: first, to }))
            }
            _ => Err(Reason::NoMove.into()),
        }
    }

    /// What the card is taken from.
    #[must_use]
    pub fn source(self) -> Pile {
        Pile::of(self.0.from).unwrap_or(Pile::Home)
    }

    /// What it is put on.
    #[must_use]
    pub fn target(self) -> Pile {
        Pile::of(self.0.to).unwrap_or(Pile::Home)
    }
}

impl Run {
    /// The move of so many cards, 1 to 13, or of as many as the ranks say.
    ///
    /// # Errors
    ///
    /// [`Reason::NoMove`], where there is no such pile or number, or the first pile is home.
    pub fn new(from: Pile, to: Pile, count: Option<u8>) -> Result<Run, Error> {
        if matches!(count, Some(0 | 14..)) {
            return Err(Reason::NoMove.into());
        }
        let Move(fcanon_move { from, to }) = Move::new(from, to)?;
        Ok(Run(fcanon_run_move { from, to, count: count.unwrap_or(0) }))
    }

    /// What the cards are taken from.
    #[must_use]
    pub fn source(self) -> Pile {
        Pile::of(self.0.from).unwrap_or(Pile::Home)
    }

    /// What they are put on.
    #[must_use]
    pub fn target(self) -> Pile {
        Pile::of(self.0.to).unwrap_or(Pile::Home)
    }

    /// How many they are, where the move says so.
    #[must_use]
    pub fn count(self) -> Option<u8> {
        Some(self.0.count).filter(|&count| count > 0)
    }
}

impl FromStr for Move {
    type Err = Error;

    fn from_str(text: &str) -> Result<Move, Error> {
        match *text.as_bytes() {
            [from, to] => match (Pile::of(from), Pile::of(to)) {
                (Some(from), Some(to)) => Move::new(from, to),
                _ => Err(Reason::NoMove.into()),
            },
            _ => Err(Reason::NoMove.into()),
        }
    }
}

impl FromStr for Run {
    type Err = Error;

    fn from_str(text: &str) -> Result<Run, Error> {
        let (piles, number) = match text.split_once(['v', 'V']) {
            Some((piles, number)) if number.len() == 1 => {
                (piles, u8::from_str_radix(number, 16).ok())
            }
            Some(_) => return Err(Reason::NoMove.into()),
            None => return text.parse().map(|it: Move| it.into()),
        };
        let it: Move = piles.parse()?;
        Run::new(it.source(), it.target(), Some(number.unwrap_or(0)))
    }
}

impl From<Move> for Run {
    fn from(Move(fcanon_move { from, to }): Move) -> Run {
        Run(fcanon_run_move { from, to, count: 0 })
    }
}

impl fmt::Display for Move {
    fn fmt(&self, f: &mut fmt::Formatter) -> fmt::Result {
        write!(f, "{}{}", char::from(self.0.from), char::from(self.0.to))
    }
}

impl fmt::Display for Run {
    fn fmt(&self, f: &mut fmt::Formatter) -> fmt::Result {
        write!(f, "{}{}", char::from(self.0.from), char::from(self.0.to))?;
        match self.0.count {
            0 => Ok(()),
            count => write!(f, "v{count:x}"),
        }
    }
}

/// The moves of one card that do what a move of several does.
#[derive(Clone, Copy)]
pub struct Moves {
    pub(crate) moves: [Move; FCANON_MOST_MOVES],
    pub(crate) count: usize,
}

impl Moves {
    pub(crate) const NONE: Moves =
        Moves { moves: [Move(fcanon_move { from: 0, to: 0 }); FCANON_MOST_MOVES], count: 0 };
}

impl Deref for Moves {
    type Target = [Move];

    fn deref(&self) -> &[Move] {
        &self.moves[..self.count]
    }
}

impl fmt::Debug for Moves {
    fn fmt(&self, f: &mut fmt::Formatter) -> fmt::Result {
        f.debug_list().entries(self.iter()).finish()
    }
}
