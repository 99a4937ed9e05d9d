use crate::board::{always, Game};
use crate::error::{made, Error};
use fcanon_sys::{fcanon_class_hash, fcanon_class_sums, fcanon_move_sums};

/// The sums of a board, from which the hash of its class is made. A search makes them once, by
/// [`Board::class_sums`](crate::Board::class_sums), and then moves them with its board.
///
/// ```
/// use fcanon::{Board, Game, ON_CELL};
/// let mut board = Board::deal(Game::FreeCell, 1)?;
/// let mut sums = board.class_sums();
/// let (below, card) = (board.bytes().cards[19], board.bytes().cards[20]);
/// sums.move_card(card, below, ON_CELL)?;
/// board.play("3a".parse()?)?;
/// assert_eq!(sums, board.class_sums());
/// assert_eq!(sums.class_hash(), board.canonical().class_sums().class_hash());
/// # Ok::<(), fcanon::Error>(())
/// ```
#[derive(Clone, Copy, PartialEq, Eq, Hash, Debug)]
pub struct ClassSums {
    pub(crate) game: Game,
    pub(crate) sums: fcanon_class_sums,
}

/// What a card lies on at the foot of a column, in place of the byte of a card.
pub const ON_FOOT: u8 = 0;
/// What a card lies on in a cell.
pub const ON_CELL: u8 = 53;
/// What a card lies on at home.
pub const ON_HOME: u8 = 54;

impl ClassSums {
    pub(crate) const NONE: fcanon_class_sums = fcanon_class_sums { sums: [[0; 2]; 24] };

    /// The sums, each in two words of which the lower is first, and 0 after them.
    #[must_use]
    pub fn sums(&self) -> &[[u64; 2]; 24] {
        &self.sums.sums
    }

    /// Makes them the sums of the board on which this card, 1 to 52 as in the bytes of a board, lies
    /// on the one no more, but on the other: another card, [`ON_FOOT`], [`ON_CELL`] or [`ON_HOME`].
    /// With these two exchanged it is taken back.
    ///
    /// # Errors
    ///
    /// Other numbers are refused, and nothing is changed then.
    pub fn move_card(&mut self, card: u8, from: u8, onto: u8) -> Result<(), Error> {
        self.sums = made(self.sums, |it| {
            // SAFETY: the sums are there.
            unsafe { fcanon_move_sums(self.game as u32, card, from, onto, it) }
        })?;
        Ok(())
    }

    /// The hash of the board's class, the same in each run and on each machine: equivalent boards
    /// have one. It is no more than 64 good bits, so compare canonical boards where a wrong match
    /// would do harm.
    #[must_use]
    pub fn class_hash(&self) -> [u8; 16] {
        let hash = made([0; 16], |it| {
            // SAFETY: all is apart.
            unsafe { fcanon_class_hash(self.game as u32, &self.sums, it) }
        });
        always(hash)
    }
}
