//! first.rs: prints the canonical board of Microsoft's deal 1, and the move 3a as it is made there.

use fcanon::{Board, Error, Game};

fn main() -> Result<(), Error> {
    let board = Board::deal(Game::FreeCell, 1)?;
    let (canonical, passage) = board.canonicalize();
    println!("{canonical}> {}", passage.carry("3a".parse()?)?);
    Ok(())
}
