use crate::class_sums::ClassSums;
use crate::error::{made, Error, Reason};
use crate::moves::{Move, Moves, Run};
use crate::passage::Passage;
use core::{fmt, str::FromStr};
use fcanon_sys::{
    fcanon_board, fcanon_board as BoardBytes, fcanon_canon, fcanon_capacity, fcanon_child,
    fcanon_child_hash, fcanon_children, fcanon_closed, fcanon_deal, fcanon_expand, fcanon_hash,
    fcanon_key, fcanon_keys, fcanon_known_child_hashes, fcanon_move, fcanon_moves, fcanon_play,
    fcanon_play_run, fcanon_read, fcanon_run_move, fcanon_run_moves, fcanon_same, fcanon_sums,
    fcanon_symmetries, fcanon_unsolvable, fcanon_write, FCANON_MOST_CHILDREN, FCANON_MOST_MOVES,
    FCANON_MOST_RUN_MOVES,
};

// tools/tables wrote this from fcanon.h, to the next empty line.
/// A game, with the number that `fcanon.h` gives it.
#[derive(Clone, Copy, PartialEq, Eq, PartialOrd, Ord, Hash, Debug, Default)]
pub enum Game {
    /// Any card fills an empty column; built in alternating colours.
    #[default]
    FreeCell,
    /// Any card fills an empty column; built in suit.
    BakersGame,
    /// Kings alone fill an empty column; built in suit.
    EightOff,
}
const CELLS: [usize; 3] = [4, 4, 8];

impl Game {
    /// How many cells the game has.
    #[must_use]
    pub fn cells(self) -> usize {
        CELLS[self as usize]
    }
}

/// A board of a game, on which each of the 52 cards is once. Boards are equal and hashed by their
/// bytes, so canonical boards are the keys of equivalent ones. It is displayed as `fcanon show`
/// prints it, and parsed as one of FreeCell.
#[derive(Clone, Copy, PartialEq, Eq, PartialOrd, Ord, Hash)]
pub struct Board {
    pub(crate) game: Game,
    pub(crate) bytes: fcanon_board,
}

pub(crate) const NONE: fcanon_board =
    fcanon_board { heights: [0; 4], cells: [0; 8], lengths: [0; 8], cards: [0; 52] };

/// What a call made of a board or a passage, of which it takes every one.
pub(crate) fn always<T>(made: Result<T, Error>) -> T {
    made.expect("the call takes each of the game")
}

impl Board {
    /// The board that a text spells, or its first fault and where that is.
    ///
    /// # Errors
    ///
    /// The text's first fault, with its place.
    pub fn read(game: Game, text: &[u8]) -> Result<Board, Error> {
        let mut place = usize::MAX;
        let read = made(NONE, |it| {
            // SAFETY: so many bytes are there, and all is apart.
            unsafe { fcanon_read(game as u32, text.as_ptr(), text.len(), it, &mut place) }
        });
        read.map(|bytes| Board { game, bytes }).map_err(|error| error.at(place))
    }

    /// One of Microsoft's numbered deals, of FreeCell or Baker's Game.
    ///
    /// # Errors
    ///
    /// [`Reason::NoDeal`](crate::Reason::NoDeal), where the game has no such deal.
    pub fn deal(game: Game, number: u32) -> Result<Board, Error> {
        // SAFETY: there is room for a board.
        let bytes = made(NONE, |it| unsafe { fcanon_deal(game as u32, number, it) })?;
        Ok(Board { game, bytes })
    }

    /// The board of these bytes, 72 or in their parts, which `fcanon.h` describes.
    ///
    /// # Errors
    ///
    /// [`Reason::NoBoard`](crate::Reason::NoBoard), where the bytes hold no board of the game.
    pub fn from_bytes(game: Game, bytes: impl Into<BoardBytes>) -> Result<Board, Error> {
        let bytes = bytes.into();
        // SAFETY: all is apart.
        made([0; 256], |it| unsafe { fcanon_write(game as u32, &bytes, it) })?;
        Ok(Board { game, bytes })
    }

    /// The bytes of the board.
    #[must_use]
    pub fn bytes(&self) -> &fcanon_board {
        &self.bytes
    }

    /// The game of the board.
    #[must_use]
    pub fn game(&self) -> Game {
        self.game
    }

    /// Whether all cards are home.
    #[must_use]
    pub fn is_won(&self) -> bool {
        self.bytes.heights == [13; 4]
    }

    /// The canonical board of all that are equivalent to this one.
    #[must_use]
    pub fn canonical(&self) -> Board {
        let Board { game, bytes } = *self;
        // SAFETY: all is apart.
        let key = made(NONE, |it| unsafe { fcanon_key(game as u32, &bytes, it) });
        Board { game, bytes: always(key) }
    }

    /// A hash of the canonical board, the same in each run and on each machine.
    #[must_use]
    pub fn canonical_hash(&self) -> [u8; 16] {
        // SAFETY: all is apart.
        let hash = made([0; 16], |it| unsafe { fcanon_hash(self.game as u32, &self.bytes, it) });
        always(hash)
    }

    /// The sums of the board, from which the hash of its class is made.
    #[must_use]
    pub fn class_sums(&self) -> ClassSums {
        let Board { game, bytes } = *self;
        // SAFETY: all is apart.
        let sums = made(ClassSums::NONE, |it| unsafe { fcanon_sums(game as u32, &bytes, it) });
        ClassSums { game, sums: always(sums) }
    }

    /// The canonical board, and the passage to it.
    #[must_use]
    pub fn canonicalize(&self) -> (Board, Passage) {
        let Board { game, bytes } = *self;
        let found = made((NONE, Passage::NONE), |(board, passage)| {
            // SAFETY: all is apart.
            unsafe { fcanon_canon(game as u32, &bytes, board, passage) }
        });
        let (board, passage) = always(found);
        (Board { game, bytes: board }, Passage { game, bytes: passage })
    }

    /// The canonical board of the board after a move of one card, and the passage to it from there.
    ///
    /// # Errors
    ///
    /// Why the game refuses the move.
    pub fn child(&self, mv: Move) -> Result<(Board, Passage), Error> {
        let Board { game, bytes } = *self;
        let (board, passage) = made((NONE, Passage::NONE), |(board, passage)| {
            // SAFETY: all is apart.
            unsafe { fcanon_child(game as u32, &bytes, &mv.0, board, passage) }
        })?;
        Ok((Board { game, bytes: board }, Passage { game, bytes: passage }))
    }

    /// The moves of one card that the game allows, in the order of their piles.
    pub fn moves(&self) -> impl Iterator<Item = Move> {
        const ROOM: usize = FCANON_MOST_CHILDREN;
        let nothing = ([Move(fcanon_move { from: 0, to: 0 }); ROOM], 0);
        let found = made(nothing, |(moves, count)| {
            let moves = moves.as_mut_ptr().cast::<fcanon_move>();
            // SAFETY: there is room for so many moves, which are laid out as in C; all is apart.
            unsafe { fcanon_moves(self.game as u32, &self.bytes, moves, ROOM, count) }
        });
        let (moves, count) = always(found);
        IntoIterator::into_iter(moves).take(count)
    }

    /// The moves of two and more cards from column to column that the game allows, each with its
    /// number of cards.
    pub fn run_moves(&self) -> impl Iterator<Item = Run> {
        const ROOM: usize = FCANON_MOST_RUN_MOVES;
        let nothing = ([fcanon_run_move { from: 0, to: 0, count: 0 }; ROOM], 0);
        let found = made(nothing, |(runs, count)| {
            // SAFETY: there is room for so many moves; all is apart.
            unsafe {
                fcanon_run_moves(self.game as u32, &self.bytes, runs.as_mut_ptr(), ROOM, count)
            }
        });
        let (runs, count) = always(found);
        IntoIterator::into_iter(runs).take(count).map(Run)
    }

    /// The moves of one card that the game allows, and for each the canonical board after it.
    #[allow(clippy::large_stack_arrays)] // C's callers have them there too
    pub fn children(&self) -> impl Iterator<Item = (Move, Board)> {
        const ROOM: usize = FCANON_MOST_CHILDREN;
        let Board { game, bytes } = *self;
        let nothing = ([Move(fcanon_move { from: 0, to: 0 }); ROOM], [NONE; ROOM], 0);
        let found = made(nothing, |(moves, keys, count)| {
            let moves = moves.as_mut_ptr().cast::<fcanon_move>();
            // SAFETY: there is room for so many moves, which are laid out as in C, and as many
            // boards; all is apart.
            unsafe {
                fcanon_children(game as u32, &bytes, moves, ROOM, keys.as_mut_ptr(), ROOM, count)
            }
        });
        let (moves, keys, count) = always(found);
        (0..count).map(move |at| (moves[at], Board { game, bytes: keys[at] }))
    }

    /// The moves of one card that the game allows, and for each the class hash of the board after
    /// it, which is made of the sums of this board.
    ///
    /// # Errors
    ///
    /// [`Reason::NoBoard`], where the sums are those of a board of another game.
    pub fn child_hashes(
        &self,
        sums: &ClassSums,
    ) -> Result<impl Iterator<Item = (Move, [u8; 16])>, Error> {
        const ROOM: usize = FCANON_MOST_CHILDREN;
        if sums.game != self.game {
            return Err(Reason::NoBoard.into());
        }
        let nothing = fcanon_child_hash { mv: fcanon_move { from: 0, to: 0 }, hash: [0; 16] };
        let (children, count) = made(([nothing; ROOM], 0), |(children, count)| {
            let (board, children) = (&self.bytes, children.as_mut_ptr());
            let (game, sums) = (self.game as u32, &sums.sums);
            // SAFETY: there is room for so many, and the board is one of the game; all is apart.
            unsafe { fcanon_known_child_hashes(game, board, sums, children, ROOM, count) }
        })?;
        Ok(IntoIterator::into_iter(children).take(count).map(|it| (Move(it.mv), it.hash)))
    }

    /// The renamings that with some orders lead from the board to itself, 1 to 24: what clubs,
    /// diamonds, hearts and spades become, 0 to 3. The first changes nothing.
    pub fn symmetries(&self) -> impl Iterator<Item = [u8; 4]> {
        let found = made(([[0; 4]; 24], 0), |(suits, count)| {
            // SAFETY: there is room for so many renamings; all is apart.
            unsafe { fcanon_symmetries(self.game as u32, &self.bytes, suits, count) }
        });
        let (suits, count) = always(found);
        IntoIterator::into_iter(suits).take(count as usize)
    }

    /// The passage to another board, or `None` if that is not equivalent.
    #[must_use]
    pub fn passage_to(&self, other: &Board) -> Option<Passage> {
        let game = self.game;
        let found = made(Passage::NONE, |it| {
            // SAFETY: all is apart.
            unsafe { fcanon_same(game as u32, &self.bytes, &other.bytes, it) }
        });
        found.ok().filter(|_| game == other.game).map(|bytes| Passage { game, bytes })
    }

    /// Moves one card, or says why the game refuses that; then the board stays as it is.
    ///
    /// # Errors
    ///
    /// Why the game refuses the move.
    pub fn play(&mut self, mv: Move) -> Result<(), Error> {
        // SAFETY: the one is a board, the other a move.
        self.bytes = made(self.bytes, |it| unsafe { fcanon_play(self.game as u32, it, &mv.0) })?;
        Ok(())
    }

    /// The same for a move of several cards.
    ///
    /// # Errors
    ///
    /// Why the game refuses the move.
    pub fn play_run(&mut self, run: Run) -> Result<(), Error> {
        // SAFETY: the one is a board, the other a move.
        self.bytes =
            made(self.bytes, |it| unsafe { fcanon_play_run(self.game as u32, it, &run.0) })?;
        Ok(())
    }

    /// The moves of one card that do what a move of several does; the board stays as it is.
    ///
    /// # Errors
    ///
    /// Why the game refuses the move.
    pub fn expand(&self, run: Run) -> Result<Moves, Error> {
        made(Moves::NONE, |Moves { moves, count }| {
            let moves = moves.as_mut_ptr().cast::<fcanon_move>();
            // SAFETY: there is room for so many moves, which are laid out as in C; all is apart.
            unsafe {
                let (board, room) = (&self.bytes, FCANON_MOST_MOVES);
                fcanon_expand(self.game as u32, board, &run.0, moves, room, count)
            }
        })
    }

    /// Whether keys show that no list of moves wins from the board: they are those of a closed list,
    /// as [`find_flaw`] says it, and the board's own key is among them.
    #[must_use]
    pub fn is_unsolvable(&self, keys: &[BoardBytes]) -> bool {
        // SAFETY: so many keys are there.
        let done = made((), |()| unsafe {
            fcanon_unsolvable(self.game as u32, &self.bytes, keys.as_ptr(), keys.len())
        });
        done.is_ok()
    }

    /// How many cards can go at once to a column, 1 to 8.
    ///
    /// # Errors
    ///
    /// [`Reason::NoColumn`](crate::Reason::NoColumn), where there is no such column.
    pub fn capacity(&self, column: u8) -> Result<u32, Error> {
        let digit = b'0'.wrapping_add(column);
        // SAFETY: all is apart.
        made(0, |it| unsafe { fcanon_capacity(self.game as u32, &self.bytes, digit, it) })
    }
}

/// Makes the bytes of boards those of their canonical boards. Of the first that are no board the
/// error has the index as its place; those before it are made, the others as they were.
///
/// # Errors
///
/// [`Reason::NoBoard`](crate::Reason::NoBoard), with which of the boards is none.
pub fn canonicalize_all(game: Game, boards: &mut [BoardBytes]) -> Result<(), Error> {
    let (count, mut place) = (boards.len(), usize::MAX);
    let done = made(boards.as_mut_ptr(), |it| {
        // SAFETY: so many boards are there, and the place is apart from them.
        unsafe { fcanon_keys(game as u32, *it, count, &mut place) }
    });
    done.map(drop).map_err(|error| error.at(place))
}

/// What is wrong with keys that are not those of a closed list.
#[derive(Clone, Copy, PartialEq, Eq, Debug)]
pub struct Flaw {
    /// What is wrong.
    pub reason: Reason,
    /// With which key, from 0.
    pub place: usize,
    /// The first move that leads out, where the reason is [`Reason::Open`](crate::Reason::Open).
    pub mv: Option<Move>,
}

/// What is wrong with keys of a list that is said to be closed, or `None`: then they are canonical
/// boards in ascending order, none is won, and each move of one card leads to a board whose key is
/// among them. So no list of moves wins from any of them.
#[must_use]
pub fn find_flaw(game: Game, keys: &[BoardBytes]) -> Option<Flaw> {
    let (mut place, mut mv) = (0, fcanon_move { from: 0, to: 0 });
    // SAFETY: so many keys are there, and what is written is apart from them.
    let done = made((), |()| unsafe {
        fcanon_closed(game as u32, keys.as_ptr(), keys.len(), &mut place, &mut mv)
    });
    let Error { reason, .. } = done.err()?;
    let mv = (reason == Reason::Open).then_some(Move(mv));
    Some(Flaw { reason, place, mv })
}

/// The bytes of a board of FreeCell; [`Board::from_bytes`] takes those of the other games too.
impl TryFrom<[u8; 72]> for Board {
    type Error = Error;

    fn try_from(bytes: [u8; 72]) -> Result<Board, Error> {
        Board::from_bytes(Game::FreeCell, bytes)
    }
}

impl FromStr for Board {
    type Err = Error;

    fn from_str(text: &str) -> Result<Board, Error> {
        Board::read(Game::FreeCell, text.as_bytes())
    }
}

impl fmt::Display for Board {
    fn fmt(&self, f: &mut fmt::Formatter) -> fmt::Result {
        let call = |it: &mut [u8; 256]| {
            // SAFETY: there is room for the text; all is apart.
            unsafe { fcanon_write(self.game as u32, &self.bytes, it) }
        };
        let text = always(made([0; 256], call));
        text.iter().take_while(|&&it| it != 0).try_for_each(|&it| write!(f, "{}", char::from(it)))
    }
}

impl fmt::Debug for Board {
    fn fmt(&self, f: &mut fmt::Formatter) -> fmt::Result {
        write!(f, "{:?}\n{self}", self.game)
    }
}
