use crate::board::{always, Board, Game, NONE};
use crate::error::{made, Error, Reason};
use crate::moves::{Move, Run};
use core::fmt;
use fcanon_sys::{
    fcanon_carry, fcanon_carry_run, fcanon_image, fcanon_inverse, fcanon_passage, fcanon_then,
};

/// A way from one board of a game to another: a renaming of suits, orders of columns and of cells.
/// It is displayed as `fcanon canon` prints it.
#[derive(Clone, Copy, PartialEq, Eq, PartialOrd, Ord, Hash, Debug)]
pub struct Passage {
    pub(crate) game: Game,
    pub(crate) bytes: fcanon_passage,
}

impl Passage {
    pub(crate) const NONE: fcanon_passage =
        fcanon_passage { suits: [0; 4], columns: [0; 8], cells: [0; 8] };

    /// The passage of these bytes, 20 or in their parts, which `fcanon.h` describes.
    ///
    /// # Errors
    ///
    /// [`Reason::NoPassage`], where the bytes hold no passage of the game.
    pub fn from_bytes(game: Game, bytes: impl Into<fcanon_passage>) -> Result<Passage, Error> {
        let bytes = bytes.into();
        // SAFETY: all is apart.
        made(Passage::NONE, |it| unsafe { fcanon_inverse(game as u32, &bytes, it) })?;
        Ok(Passage { game, bytes })
    }

    /// The bytes of the passage.
    #[must_use]
    pub fn bytes(&self) -> &fcanon_passage {
        &self.bytes
    }

    /// The passage that leads back.
    #[must_use]
    pub fn inverse(&self) -> Passage {
        let Passage { game, bytes } = *self;
        // SAFETY: both are passages, and apart.
        let bytes = made(Passage::NONE, |it| unsafe { fcanon_inverse(game as u32, &bytes, it) });
        Passage { game, bytes: always(bytes) }
    }

    /// This passage, and then the next, which must be one of the same game.
    ///
    /// # Errors
    ///
    /// [`Reason::NoPassage`], where the next is one of another game.
    pub fn then(&self, next: &Passage) -> Result<Passage, Error> {
        let Passage { game, bytes } = *self;
        if next.game != game {
            return Err(Reason::NoPassage.into());
        }
        // SAFETY: all is apart.
        let both =
            made(Passage::NONE, |it| unsafe { fcanon_then(game as u32, &bytes, &next.bytes, it) })?;
        Ok(Passage { game, bytes: both })
    }

    /// The board that the passage leads to from a board, which must be one of the same game.
    ///
    /// # Errors
    ///
    /// [`Reason::NoBoard`], where the board is one of another game.
    pub fn image(&self, board: &Board) -> Result<Board, Error> {
        let Passage { game, bytes } = *self;
        if board.game != game {
            return Err(Reason::NoBoard.into());
        }
        // SAFETY: all is apart.
        let image =
            made(NONE, |it| unsafe { fcanon_image(game as u32, &bytes, &board.bytes, it) })?;
        Ok(Board { game, bytes: image })
    }

    /// The move of the same card on the board that the passage leads to.
    ///
    /// # Errors
    ///
    /// [`Reason::NoMove`], where the game has no such move.
    pub fn carry(&self, mv: Move) -> Result<Move, Error> {
        // SAFETY: the one is a passage, the other a move.
        made(mv, |it| unsafe { fcanon_carry(self.game as u32, &self.bytes, &mut it.0) })
    }

    /// The move of the same cards on the board that the passage leads to.
    ///
    /// # Errors
    ///
    /// [`Reason::NoMove`], where the game has no such move.
    pub fn carry_run(&self, run: Run) -> Result<Run, Error> {
        // SAFETY: the one is a passage, the other a move.
        made(run, |it| unsafe { fcanon_carry_run(self.game as u32, &self.bytes, &mut it.0) })
    }
}

impl fmt::Display for Passage {
    fn fmt(&self, f: &mut fmt::Formatter) -> fmt::Result {
        let mut part = |word: &str, letters: &[u8], from: &[u8]| {
            f.write_str(word)?;
            from.iter().try_for_each(|&it| write!(f, "{}", char::from(letters[usize::from(it)])))
        };
        part("renaming ", b"CDHS", &self.bytes.suits)?;
        part(" columns ", b"12345678", &self.bytes.columns)?;
        part(" cells ", b"abcdefgk", &self.bytes.cells[..self.game.cells()])
    }
}
