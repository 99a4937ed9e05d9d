//! The Rust crate which does what each line of standard input asks for; tests/library/bindings/run says
//! how.
use fcanon::{canonicalize_all, find_flaw, Board, BoardBytes, Error, Flaw, Game, Move, Passage, Reason, Run};
use std::collections::HashSet;
use std::io::Read;

fn line_of(board: &Board) -> String {
    board.to_string().replace('\n', "|")
}

fn tell_board(board: &Board) {
    let (canonical, passage) = board.canonicalize();
    let other = Board::read(board.game(), board.to_string().as_bytes()).unwrap();
    assert_eq!(*board, other);
    assert_eq!(HashSet::from([*board, other]).len(), 1);
    assert_eq!(board.passage_to(&canonical), Some(passage));
    assert_eq!(passage.inverse().inverse(), passage);
    assert!(canonical == canonical.canonical() && canonical == board.canonical());
    assert_eq!(Board::from_bytes(board.game(), *board.bytes()), Ok(*board));
    println!("show {}\ncanon {}\n# {passage}", line_of(board), line_of(&canonical));
    let mut keys = [*board.bytes(), *canonical.bytes()];
    assert_eq!(canonicalize_all(board.game(), &mut keys), Ok(()));
    assert_eq!(keys, [*canonical.bytes(); 2]);
    let capacities = (1..=8).map(|column| format!(" {}", board.capacity(column).unwrap()));
    println!("capacity{}", capacities.collect::<String>());
    println!(
        "key {} {}",
        hex_of(&<[u8; 72]>::from(*canonical.bytes())),
        hex_of(&board.canonical_hash())
    );
    println!("class {} {}", board.game() as u32, hex_of(&board.class_sums().class_hash()));
    assert_eq!(board.class_sums().class_hash(), canonical.class_sums().class_hash());
    let letters = |suits: [u8; 4]| suits.map(|it| char::from(b"CDHS"[usize::from(it)]));
    let names = board.symmetries().flat_map(|suits| [' '].into_iter().chain(letters(suits)));
    println!("symmetries{}", names.collect::<String>());
    assert_eq!(passage.image(board), Ok(canonical));
    assert_eq!(passage.inverse().image(&canonical), Ok(*board));
    assert_eq!(passage.then(&passage.inverse()).unwrap().image(board), Ok(*board));
    let moves = board.moves().map(Run::from).chain(board.run_moves());
    println!("moves{}", moves.map(|it| format!(" {it}")).collect::<String>());
    tell_children(board);
}

fn tell_children(board: &Board) {
    let moves = board.children().map(|(mv, child)| {
        assert_eq!(board.child(mv).map(|(key, _)| key), Ok(child));
        format!(" {mv}")
    });
    println!("children{}", moves.collect::<String>());
    let hashes = board.moves().map(|mv| {
        let mut after = *board;
        after.play(mv).unwrap();
        (mv, after.class_sums().class_hash())
    });
    assert!(board.child_hashes(&board.class_sums()).unwrap().eq(hashes));
    tell_closed(board);
}

fn tell_closed(board: &Board) {
    let keys = [*board.canonical().bytes(); 2];
    let doubled = find_flaw(board.game(), &keys).map(|flaw| (flaw.reason, flaw.place, flaw.mv));
    assert_eq!(doubled, Some((Reason::NotAscending, 1, None)));
    assert_eq!(board.is_unsolvable(&keys[..1]), find_flaw(board.game(), &keys[..1]).is_none());
    match find_flaw(board.game(), &keys[..1]) {
        None => println!("closed yes"),
        Some(Flaw { reason, place, mv }) => {
            let mv = mv.map_or("-".to_string(), |it| it.to_string());
            println!("closed {} {place} {mv}", reason.answer());
        }
    }
}

/// Whether a reason against a move or a fault of a text has the name that its words make.
fn is_named(reason: Reason) -> bool {
    let spaced = |it: char| match it.is_ascii_uppercase() {
        true => format!(" {}", it.to_ascii_lowercase()),
        false => it.to_string(),
    };
    let name = format!("{reason:?}").chars().map(spaced).collect::<String>();
    reason.answer() < 32 || reason.answer() > 127 || name.trim_start() == reason.to_string()
}

fn verdict(start: &Board, moves: &[Run], play: fn(&mut Board, Run) -> Result<(), Error>) -> String {
    let mut board = *start;
    for (index, &it) in moves.iter().enumerate() {
        if let Err(error) = play(&mut board, it) {
            assert!(is_named(error.reason));
            return format!("illegal {index} {}", error.reason);
        }
    }
    format!("{} {}", if board.is_won() { "wins" } else { "legal" }, moves.len())
}

fn hex_of(bytes: &[u8]) -> String {
    bytes.iter().map(|byte| format!("{byte:02x}")).collect()
}

/// Plays a move of one card, by the board's child too.
fn play_one(board: &mut Board, run: Run) -> Result<(), Error> {
    let (child, mv) = (board.child(one_card(run)), one_card(run));
    board.play(mv)?;
    assert_eq!(child, Ok(board.canonicalize()));
    Ok(())
}

/// The move of one card between the same piles, by its piles and by its text.
fn one_card(run: Run) -> Move {
    let made = Move::new(run.source(), run.target()).unwrap();
    assert_eq!((Ok(run), Ok(made)), (run.to_string().parse(), run.to_string().parse()));
    assert_eq!(Run::new(made.source(), made.target(), run.count()), Ok(run));
    made
}

fn expanded(start: &Board, moves: &[Run]) -> Vec<String> {
    let mut board = *start;
    let mut found = vec![">".to_string()];
    for &it in moves {
        found.extend(board.expand(it).unwrap().iter().map(Move::to_string));
        board.play_run(it).unwrap();
    }
    found
}

fn tell_list(board: &Board, mark: &str, words: &[&str]) -> Result<(), Error> {
    let runs = mark == ">>";
    let moves = words.iter().map(|word| word.parse()).collect::<Result<Vec<Run>, Error>>()?;
    let (canonical, passage) = board.canonicalize();
    let image = |&it: &Run| match runs {
        true => passage.carry_run(it),
        false => passage.carry(one_card(it)).map(Run::from),
    };
    let images = moves.iter().map(image).collect::<Result<Vec<Run>, Error>>()?;
    let play = match runs {
        true => Board::play_run,
        false => play_one,
    };
    let got = verdict(board, &moves, play);
    assert_eq!(got, verdict(&canonical, &images, play));
    let names = images.iter().map(|it| format!(" {it}")).collect::<String>();
    println!("{mark}{names}\n{got}");
    if runs && !got.starts_with("illegal") {
        println!("{}", expanded(board, &moves).join(" "));
    }
    Ok(())
}

fn bytes_in(hex: &str) -> Vec<u8> {
    let byte = |at| u8::from_str_radix(&hex[at..at + 2], 16).unwrap();
    (0..hex.len()).step_by(2).map(byte).collect()
}

fn bytes_of(bytes: &[u8]) -> BoardBytes {
    <[u8; 72]>::try_from(bytes).unwrap().into()
}

const GAMES: [Game; 3] = [Game::FreeCell, Game::BakersGame, Game::EightOff];

/// Numbers by chance, which each language draws alike: xorshift of 32 bits.
struct Numbers(u32);

impl Numbers {
    fn below(&mut self, bound: usize) -> usize {
        self.0 ^= self.0 << 13;
        self.0 ^= self.0 >> 17;
        self.0 ^= self.0 << 5;
        self.0 as usize % bound
    }

    /// Bytes of which up to two are others.
    fn damaged<const SIZE: usize>(&mut self, mut bytes: [u8; SIZE]) -> [u8; SIZE] {
        for _ in 0..self.below(3) {
            let at = self.below(SIZE);
            bytes[at] = self.below(60) as u8;
        }
        bytes
    }
}

fn answer_to<T>(made: Result<T, Error>) -> u32 {
    made.map_or_else(|error| error.reason.answer(), |_| 0)
}

/// A sum of what is answered to damaged boards and passages, and to moves by chance.
fn tell_answers(seed: u32, rounds: u32) {
    let (mut draw, mut total) = (Numbers(seed), 0u32);
    let signs: Vec<char> = "12345678abcdefgkhX \u{e9}".chars().collect();
    for _ in 0..rounds {
        let game = GAMES[draw.below(GAMES.len())];
        let board = Board::deal(Game::FreeCell, draw.below(1000) as u32 + 1).unwrap();
        let bytes = draw.damaged((*board.bytes()).into());
        let passage = draw.damaged((*board.canonicalize().1.bytes()).into());
        let mv: String = (0..2).map(|_| signs[draw.below(signs.len())]).collect();
        let (mut one, mut other) = (board, board);
        let answers = [
            answer_to(Board::from_bytes(game, bytes)),
            answer_to(Passage::from_bytes(game, passage)),
            answer_to(mv.parse().and_then(|it| one.play(it))),
            answer_to(format!("{mv}v3").parse().and_then(|it| other.play_run(it))),
        ];
        let fold = |sum: u32, answer: &u32| sum.wrapping_mul(31).wrapping_add(*answer);
        total = answers.iter().fold(total, fold);
    }
    println!("answers {total}");
}

fn made(what: &str, game: &str, given: &str) -> Result<Board, Error> {
    let game = GAMES[game.parse::<usize>().unwrap()];
    match what {
        "board" => Board::read(game, &bytes_in(given)),
        "boards" => {
            let mut boards: Vec<BoardBytes> = bytes_in(given).chunks(72).map(bytes_of).collect();
            canonicalize_all(game, &mut boards).map(|()| unreachable!())
        }
        "bytes" => Board::from_bytes(game, bytes_of(&bytes_in(given))),
        _ => Board::deal(game, given.parse().unwrap()),
    }
}

fn answer_line(board: &mut Option<Board>, line: &str) -> Result<(), Error> {
    match line.split(' ').collect::<Vec<_>>()[..] {
        [mark @ (">" | ">>"), ref words @ ..] => tell_list(&board.unwrap(), mark, words),
        ["answers", seed, rounds] => {
            tell_answers(seed.parse().unwrap(), rounds.parse().unwrap());
            Ok(())
        }
        [what, game, given] => {
            let made = made(what, game, given)?;
            println!("made");
            tell_board(&made);
            *board = Some(made);
            Ok(())
        }
        _ => unreachable!(),
    }
}

fn main() {
    let (mut text, mut board) = (String::new(), None);
    std::io::stdin().read_to_string(&mut text).unwrap();
    for line in text.lines() {
        if let Err(error) = answer_line(&mut board, line) {
            assert!(is_named(error.reason));
            println!("refused {error}");
        }
    }
}
