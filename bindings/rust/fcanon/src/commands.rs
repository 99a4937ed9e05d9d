use crate::board::Game;
use crate::error::{made, Error, Reason};
use fcanon_sys::{
    fcanon_import, fcanon_import_request, fcanon_imported, fcanon_request, fcanon_run, fcanon_written,
};
use std::collections::hash_map::RandomState;
use std::hash::{BuildHasher, Hasher};

// tools/tables wrote this from fcanon_runs.h, to the next empty line.
/// A command of the program that reads a collection.
#[derive(Clone, Copy, PartialEq, Eq, Hash, Debug)]
#[allow(missing_docs)]
pub enum Command {
    Show,
    Canon,
    Check,
    Group,
    Share,
    Expand,
    Unique,
    Table,
    Same,
    Symmetries,
    Count,
    Closed,
}
/// How a command prints.
#[derive(Clone, Copy, PartialEq, Eq, Hash, Debug, Default)]
#[allow(missing_docs)]
pub enum Format {
    #[default]
    Lines,
    Header,
    Json,
}
/// What lines of cards are that may be columns or rows.
#[derive(Clone, Copy, PartialEq, Eq, Hash, Debug, Default)]
#[allow(missing_docs)]
pub enum Lines {
    #[default]
    Unsaid,
    Columns,
    Rows,
}
/// All commands.
pub const COMMANDS: [Command; 12] = [
    Command::Show,
    Command::Canon,
    Command::Check,
    Command::Group,
    Command::Share,
    Command::Expand,
    Command::Unique,
    Command::Table,
    Command::Same,
    Command::Symmetries,
    Command::Count,
    Command::Closed,
];

/// What a command is told besides its text. A default has the game `FreeCell`, writes lines, and takes at
/// most 65,536 records and 16 MiB.
#[derive(Clone, Copy, PartialEq, Eq, Hash, Debug, Default)]
pub struct Options {
    /// The game of records without a header.
    pub game: Game,
    /// How a table is written, or the line of `Count` or `Closed`.
    pub format: Format,
    /// Whether any size is read.
    pub any_size: bool,
}

/// What a command prints, and of how many records.
#[derive(Clone, PartialEq, Eq, Hash, Debug)]
pub struct Printed {
    /// What the program prints to standard output.
    pub text: Vec<u8>,
    /// What it prints to standard error: the notes of an import.
    pub said: Vec<u8>,
    /// How many records were read; of an import, how many boards and refused blocks.
    pub records: usize,
    /// How many of them are refused, and one more where `Closed` finds a flaw.
    pub refused: usize,
}

impl Printed {
    /// The status that the program ends with: 0 where `refused` is 0, else 1.
    #[must_use]
    pub fn status(&self) -> u8 {
        u8::from(self.refused > 0)
    }
}

/// Calls with room for some output and notes, and once more with what is needed where that was too
/// little.
fn printed(
    size: usize,
    noted: usize,
    call: impl Fn(&mut Printed, &mut fcanon_imported) -> u32,
) -> Result<Printed, Error> {
    let written = fcanon_written { length: 2 * size + 4096, records: 0, refused: 0 };
    let mut imported = fcanon_imported { written, noted };
    loop {
        let room = (vec![0; imported.written.length], vec![0; imported.noted]);
        let printed = Printed { text: room.0, said: room.1, records: 0, refused: 0 };
        match made(printed, |it| call(it, &mut imported)) {
            Err(Error { reason: Reason::NoRoom, .. }) => {}
            Err(error) => return Err(error),
            Ok(mut it) => {
                let fcanon_written { length, records, refused } = imported.written;
                it.text.truncate(length);
                it.said.truncate(imported.noted);
                return Ok(Printed { records, refused, ..it });
            }
        }
    }
}

/// What `fcanon COMMAND` prints of a collection.
///
/// ```
/// use fcanon::{run, Board, Command, Game, Options};
/// let board = Board::deal(Game::FreeCell, 1)?.to_string();
/// let printed = run(Command::Show, board.as_bytes(), Options::default())?;
/// assert_eq!((printed.text, printed.records), (board.into_bytes(), 1));
/// # Ok::<(), fcanon::Error>(())
/// ```
///
/// # Errors
///
/// [`Reason::InputTooLarge`] or [`Reason::OutOfMemory`], where the program would give up.
pub fn run(command: Command, text: &[u8], options: Options) -> Result<Printed, Error> {
    let request = fcanon_request {
        task: command as u32,
        format: options.format as u32,
        game: options.game as u32,
        any_size: u32::from(options.any_size),
        seed: RandomState::new().build_hasher().finish(),
    };
    printed(text.len(), 0, |it, imported| {
        let (output, room) = (it.text.as_mut_ptr(), it.text.len());
        // SAFETY: so many bytes are there, and all is apart.
        unsafe { fcanon_run(&request, text.as_ptr(), text.len(), output, room, &mut imported.written) }
    })
}

/// The collection that `fcanon import` makes of a text, and its notes. `lines` says whether lines of
/// cards that may be columns or rows are the ones or the others.
///
/// # Errors
///
/// [`Reason::InputTooLarge`] or [`Reason::OutOfMemory`], where the program would give up.
pub fn import_text(text: &[u8], game: Game, lines: Lines) -> Result<Printed, Error> {
    let request = fcanon_import_request { game: game as u32, lines: lines as u32 };
    printed(text.len(), 4096, |it, imported| {
        let (input, size) = (text.as_ptr(), text.len());
        let (output, room) = (it.text.as_mut_ptr(), it.text.len());
        let (notes, notes_room) = (it.said.as_mut_ptr(), it.said.len());
        // SAFETY: so many bytes are there, and all is apart.
        unsafe {
            fcanon_import(&request, input, size, output, room, notes, notes_room, imported)
        }
    })
}
