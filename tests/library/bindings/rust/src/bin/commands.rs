//! Answers each case of standard input by the Rust crate; tests/lib/cases.py says how.
use fcanon::{import_text, run, Error, Format, Game, Lines, Options, Printed, COMMANDS};
use std::io::Read;

fn text_of(digits: &str) -> Vec<u8> {
    (0..digits.len())
        .step_by(2)
        .map(|at| u8::from_str_radix(&digits[at..at + 2], 16).unwrap())
        .collect()
}

fn digits_of(text: &[u8]) -> String {
    text.iter().map(|byte| format!("{byte:02x}")).collect()
}

fn done(task: &str, game: Game, form: &str, any_size: bool, text: &[u8]) -> Result<Printed, Error> {
    let (format, lines) = match form {
        "header" => (Format::Header, Lines::Unsaid),
        "json" => (Format::Json, Lines::Unsaid),
        "columns" => (Format::Lines, Lines::Columns),
        "rows" => (Format::Lines, Lines::Rows),
        _ => (Format::default(), Lines::default()),
    };
    match COMMANDS.iter().find(|it| format!("{it:?}").to_lowercase() == task) {
        None => import_text(text, game, lines),
        Some(&command) => run(command, text, Options { game, format, any_size }),
    }
}

fn answer_to(line: &str) -> String {
    let [task, game, form, size, text] = line.split(' ').collect::<Vec<_>>()[..] else {
        unreachable!()
    };
    let game = match game {
        "freecell" => Game::FreeCell,
        "bakers_game" => Game::BakersGame,
        _ => Game::EightOff,
    };
    match done(task, game, form, size == "1", &text_of(text)) {
        Ok(it) => format!("{} {} {}", it.status(), digits_of(&it.text), digits_of(&it.said)),
        Err(error) => format!("3 - {}", digits_of(format!("fcanon: {error}\n").as_bytes())),
    }
}

fn main() {
    let mut text = String::new();
    std::io::stdin().read_to_string(&mut text).unwrap();
    text.lines().for_each(|line| println!("{}", answer_to(line)));
}
