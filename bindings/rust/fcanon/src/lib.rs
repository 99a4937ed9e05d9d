//! Canonical boards of FreeCell, Baker's Game and Eight Off, and moves carried to them.
//!
//! ```
//! use fcanon::{Board, Game};
//! let board = Board::deal(Game::FreeCell, 1)?;
//! let (canonical, passage) = board.canonicalize();
//! assert_eq!(canonical, canonical.canonical());
//! assert_eq!(passage.carry("3a".parse()?)?.to_string(), "6a");
//! # Ok::<(), fcanon::Error>(())
//! ```
//!
//! Two boards of a game have one canonical board if and only if an order of columns, an order of
//! cells and a renaming of suits that keeps the building rule lead from the one to the other. Behind
//! each method is a call of `fcanon.h`, whose answer is proved; an answer against it is an [`Error`].
//! With the feature `commands` the function `run` does what a command of the program does over a whole
//! collection, and `import_text` what `fcanon import` does: in memory, and without the program.
#![cfg_attr(not(feature = "std"), no_std)]
#![warn(missing_docs)]

mod board;
mod class_sums;
#[cfg(feature = "commands")]
mod commands;
mod error;
mod moves;
mod passage;

pub use board::{canonicalize_all, find_flaw, Board, Flaw, Game};
pub use class_sums::{ClassSums, ON_CELL, ON_FOOT, ON_HOME};
#[cfg(feature = "commands")]
pub use commands::{import_text, run, Command, Format, Lines, Options, Printed, COMMANDS};
pub use error::{Card, Error, Reason};
pub use fcanon_sys::{fcanon_board as BoardBytes, fcanon_passage as PassageBytes};
pub use moves::{Move, Moves, Pile, Run};
pub use passage::Passage;
