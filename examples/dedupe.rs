//! dedupe.rs: solves a board of FreeCell, breadth first, and takes up one state of each class:
//! those that differ in names of suits and orders of columns and cells are one. It prints a list of
//! moves.
//!
//!   cargo new dedupe && cp dedupe.rs dedupe/src/main.rs && cd dedupe
//!   cargo add --path "$(pkg-config --variable=bindings fcanon)/rust/fcanon"
//!   cargo run --release < late.board
use fcanon::{Board, Error, Move};
use std::collections::{HashSet, VecDeque};
use std::io::Read;

fn solution(start: Board) -> Option<Vec<Move>> {
    let mut seen = HashSet::from([start.canonical_hash()]); // 16 bytes a class
    let mut open = VecDeque::from([(start, Vec::new())]);
    while let Some((board, path)) = open.pop_front() {
        if board.is_won() {
            return Some(path);
        }
        for mv in board.moves() {
            let mut next = board;
            next.play(mv).expect("the game allows it");
            if seen.insert(next.canonical_hash()) {
                open.push_back((next, [&path[..], &[mv]].concat()));
            }
        }
    }
    None
}

fn main() -> Result<(), Error> {
    let mut text = String::new();
    std::io::stdin().read_to_string(&mut text).expect("a board on standard input");
    match solution(text.parse()?) {
        Some(path) => println!(">{}", path.iter().map(|mv| format!(" {mv}")).collect::<String>()),
        None => println!("no solution"),
    }
    Ok(())
}
