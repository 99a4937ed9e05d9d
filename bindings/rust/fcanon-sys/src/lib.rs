//! The calls of libfcanon, as `fcanon.h` declares them and says what they do, and with the feature
//! `commands` those of `fcanon_runs.h`. The crate `fcanon` makes them safe.
#![no_std]
#![allow(non_camel_case_types)]

/// A board: 72 bytes, which two equal boards of a game share.
#[repr(C)]
#[derive(Clone, Copy, PartialEq, Eq, PartialOrd, Ord, Hash, Debug)]
pub struct fcanon_board {
    /// How many cards are home: clubs, diamonds, hearts, spades.
    pub heights: [u8; 4],
    /// The cards in the cells, 0 for none.
    pub cells: [u8; 8],
    /// How many cards each column has.
    pub lengths: [u8; 8],
    /// The cards of the columns, one column after another.
    pub cards: [u8; 52],
}

/// A passage from one board to another: 20 bytes.
#[repr(C)]
#[derive(Clone, Copy, PartialEq, Eq, PartialOrd, Ord, Hash, Debug)]
pub struct fcanon_passage {
    /// What clubs, diamonds, hearts and spades become.
    pub suits: [u8; 4],
    /// For each new column the old one, from 0.
    pub columns: [u8; 8],
    /// For each new cell the old one, from 0.
    pub cells: [u8; 8],
}

/// A move of one card, by the characters of its two places.
#[repr(C)]
#[derive(Clone, Copy, PartialEq, Eq, PartialOrd, Ord, Hash, Debug)]
pub struct fcanon_move {
    /// Where the card is.
    pub from: u8,
    /// Where it goes.
    pub to: u8,
}

/// A move of several cards.
#[repr(C)]
#[derive(Clone, Copy, PartialEq, Eq, PartialOrd, Ord, Hash, Debug)]
pub struct fcanon_run_move {
    /// Where the cards are.
    pub from: u8,
    /// Where they go.
    pub to: u8,
    /// How many they are, or 0.
    pub count: u8,
}

/// The sums of a board: 384 bytes, one sum for each renaming, in two words of which the lower is first.
#[repr(C)]
#[derive(Clone, Copy, PartialEq, Eq, PartialOrd, Ord, Hash, Debug)]
pub struct fcanon_class_sums {
    /// The sums, and 0 after them.
    pub sums: [[u64; 2]; 24],
}

/// A move of one card, and the hash of the class of the board after it.
#[repr(C)]
#[derive(Clone, Copy, PartialEq, Eq, PartialOrd, Ord, Hash, Debug)]
pub struct fcanon_child_hash {
    /// The move.
    pub mv: fcanon_move,
    /// The hash.
    pub hash: [u8; 16],
}

/// Gives a type the bytes that C has it in.
macro_rules! as_bytes {
    ($name:ident, $size:literal) => {
        impl From<[u8; $size]> for $name {
            fn from(bytes: [u8; $size]) -> $name {
                // SAFETY: it has so many bytes without padding, and each may be any.
                unsafe { core::mem::transmute(bytes) }
            }
        }

        impl From<$name> for [u8; $size] {
            fn from(it: $name) -> [u8; $size] {
                // SAFETY: the same.
                unsafe { core::mem::transmute(it) }
            }
        }
    };
}
as_bytes!(fcanon_board, 72);
as_bytes!(fcanon_passage, 20);
as_bytes!(fcanon_move, 2);
as_bytes!(fcanon_run_move, 3);

// tools/tables wrote this from fcanon.h, to the next empty line.
/// The version of these calls.
pub const FCANON_VERSION: u32 = 100;
/// A move of several cards is never more moves of one card than these.
pub const FCANON_MOST_MOVES: usize = 49;
/// A board never allows more moves of one card than these.
pub const FCANON_MOST_CHILDREN: usize = 272;
/// A board never allows more moves of several cards than these.
pub const FCANON_MOST_RUN_MOVES: usize = 672;

extern "C" {
    pub fn fcanon_version() -> u32;
    pub fn fcanon_find_answer_text(answer: u32, text: *mut *const u8);
    pub fn fcanon_key(game: u32, board: *const fcanon_board, key: *mut fcanon_board) -> u32;
    pub fn fcanon_keys(
        game: u32,
        boards: *mut fcanon_board,
        count: usize,
        place: *mut usize,
    ) -> u32;
    pub fn fcanon_hash(game: u32, board: *const fcanon_board, hash: *mut [u8; 16]) -> u32;
    pub fn fcanon_sums(game: u32, board: *const fcanon_board, sums: *mut fcanon_class_sums) -> u32;
    pub fn fcanon_move_sums(
        game: u32,
        card: u8,
        from: u8,
        onto: u8,
        sums: *mut fcanon_class_sums,
    ) -> u32;
    pub fn fcanon_class_hash(game: u32, sums: *const fcanon_class_sums, hash: *mut [u8; 16])
        -> u32;
    pub fn fcanon_child(
        game: u32,
        board: *const fcanon_board,
        mv: *const fcanon_move,
        canonical: *mut fcanon_board,
        passage: *mut fcanon_passage,
    ) -> u32;
    pub fn fcanon_closed(
        game: u32,
        keys: *const fcanon_board,
        count: usize,
        place: *mut usize,
        mv: *mut fcanon_move,
    ) -> u32;
    pub fn fcanon_unsolvable(
        game: u32,
        board: *const fcanon_board,
        keys: *const fcanon_board,
        count: usize,
    ) -> u32;
    pub fn fcanon_symmetries(
        game: u32,
        board: *const fcanon_board,
        suits: *mut [[u8; 4]; 24],
        count: *mut u32,
    ) -> u32;
    pub fn fcanon_read(
        game: u32,
        text: *const u8,
        length: usize,
        board: *mut fcanon_board,
        place: *mut usize,
    ) -> u32;
    pub fn fcanon_write(game: u32, board: *const fcanon_board, text: *mut [u8; 256]) -> u32;
    pub fn fcanon_canon(
        game: u32,
        board: *const fcanon_board,
        canonical: *mut fcanon_board,
        passage: *mut fcanon_passage,
    ) -> u32;
    pub fn fcanon_same(
        game: u32,
        board: *const fcanon_board,
        other: *const fcanon_board,
        passage: *mut fcanon_passage,
    ) -> u32;
    pub fn fcanon_inverse(
        game: u32,
        passage: *const fcanon_passage,
        inverse: *mut fcanon_passage,
    ) -> u32;
    pub fn fcanon_then(
        game: u32,
        first: *const fcanon_passage,
        next: *const fcanon_passage,
        both: *mut fcanon_passage,
    ) -> u32;
    pub fn fcanon_image(
        game: u32,
        passage: *const fcanon_passage,
        board: *const fcanon_board,
        image: *mut fcanon_board,
    ) -> u32;
    pub fn fcanon_carry(game: u32, passage: *const fcanon_passage, mv: *mut fcanon_move) -> u32;
    pub fn fcanon_play(game: u32, board: *mut fcanon_board, mv: *const fcanon_move) -> u32;
    pub fn fcanon_capacity(game: u32, board: *const fcanon_board, to: u8, cards: *mut u32) -> u32;
    pub fn fcanon_carry_run(
        game: u32,
        passage: *const fcanon_passage,
        run: *mut fcanon_run_move,
    ) -> u32;
    pub fn fcanon_play_run(game: u32, board: *mut fcanon_board, run: *const fcanon_run_move)
        -> u32;
    pub fn fcanon_expand(
        game: u32,
        board: *const fcanon_board,
        run: *const fcanon_run_move,
        moves: *mut fcanon_move,
        room: usize,
        count: *mut usize,
    ) -> u32;
    pub fn fcanon_moves(
        game: u32,
        board: *const fcanon_board,
        moves: *mut fcanon_move,
        room: usize,
        count: *mut usize,
    ) -> u32;
    pub fn fcanon_run_moves(
        game: u32,
        board: *const fcanon_board,
        runs: *mut fcanon_run_move,
        room: usize,
        count: *mut usize,
    ) -> u32;
    pub fn fcanon_children(
        game: u32,
        board: *const fcanon_board,
        moves: *mut fcanon_move,
        moves_room: usize,
        keys: *mut fcanon_board,
        keys_room: usize,
        count: *mut usize,
    ) -> u32;
    pub fn fcanon_child_hashes(
        game: u32,
        board: *const fcanon_board,
        sums: *const fcanon_class_sums,
        children: *mut fcanon_child_hash,
        room: usize,
        count: *mut usize,
    ) -> u32;
    pub fn fcanon_known_child_hashes(
        game: u32,
        board: *const fcanon_board,
        sums: *const fcanon_class_sums,
        children: *mut fcanon_child_hash,
        room: usize,
        count: *mut usize,
    ) -> u32;
    pub fn fcanon_deal(game: u32, number: u32, board: *mut fcanon_board) -> u32;
}

/// A command over a collection.
#[cfg(feature = "commands")]
#[repr(C)]
#[derive(Clone, Copy, PartialEq, Eq, Hash, Debug)]
pub struct fcanon_request {
    /// The command.
    pub task: u32,
    /// How it prints.
    pub format: u32,
    /// The game of records without a header.
    pub game: u32,
    /// Whether it reads any size, where it is not 0.
    pub any_size: u32,
    /// What the hashes of boards begin with.
    pub seed: u64,
}

/// How much a command printed, and of how many records.
#[cfg(feature = "commands")]
#[repr(C)]
#[derive(Clone, Copy, PartialEq, Eq, Hash, Debug)]
pub struct fcanon_written {
    /// The length of the whole output, in bytes.
    pub length: usize,
    /// How many records the input has.
    pub records: usize,
    /// How many of them are refused.
    pub refused: usize,
}

/// What an import is to do.
#[cfg(feature = "commands")]
#[repr(C)]
#[derive(Clone, Copy, PartialEq, Eq, Hash, Debug)]
pub struct fcanon_import_request {
    /// The game of the boards.
    pub game: u32,
    /// What lines are that may be columns or rows.
    pub lines: u32,
}

/// How much an import wrote, and of how many boards.
#[cfg(feature = "commands")]
#[repr(C)]
#[derive(Clone, Copy, PartialEq, Eq, Hash, Debug)]
pub struct fcanon_imported {
    /// The output.
    pub written: fcanon_written,
    /// The length of the notes, in bytes.
    pub noted: usize,
}

#[cfg(feature = "commands")]
extern "C" {
    pub fn fcanon_run(
        request: *const fcanon_request,
        input: *const u8,
        input_size: usize,
        output: *mut u8,
        output_size: usize,
        written: *mut fcanon_written,
    ) -> u32;
    pub fn fcanon_import(
        request: *const fcanon_import_request,
        input: *const u8,
        input_size: usize,
        output: *mut u8,
        output_size: usize,
        notes: *mut u8,
        notes_size: usize,
        imported: *mut fcanon_imported,
    ) -> u32;
}
