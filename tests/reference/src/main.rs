//! The reference: an ordinary program for swimsim's scripts, which shares no code with swimsim. A script on standard
//! input, its replies on standard output; a fault is one line on standard error, with status 1.
//!
//! It is made to be short and fast: the round is one array with a cursor, the aim and whether it was heard are kept,
//! and the last probe and the widest gap of each member stand in a hash map, so it needs no journal. With the argument
//! `--journal` it keeps one beside all that. It reads its script whole before it answers, and takes it that there is
//! memory.
//!
//! With `--cut N` it goes on after N event lines as a detector that begins with what was left: a line `cut` stands before
//! what that one answers. With `--lives` it goes on so where a call meets the full journal, and draws from the stream of the next
//! number, as a daemon does.
//!
//! `reference run --config FILE` is an ordinary daemon over the same detector, with the threads, the journal, the control
//! lines and the closing line of `swimd run`; `reference ask --control PATH` is the same of `swimd ask`.

mod chacha;
mod choosers;
mod control;
mod daemon;
mod detector;
mod events;
mod faults;
mod fields;
mod gaps;
mod header;
mod input;
mod journal;
mod members;
mod node;
mod output;
mod replies;
mod requests;
mod round;
mod script;
mod session;
mod settings;
mod wire;

#[cfg(test)]
mod tests;

use script::Player;
use std::process::ExitCode;

fn main() -> ExitCode {
    let words: Vec<String> = std::env::args().skip(1).collect();
    let words: Vec<&str> = words.iter().map(String::as_str).collect();
    match words[..] {
        [] => play(Player::default()),
        ["--journal"] => play(Player::with_journal()),
        ["--cut", place] => match place.parse() {
            Ok(place) => play(Player::cut_at(place)),
            Err(_) => usage(),
        },
        ["--lives"] => play(Player::with_lives()),
        ["run", "--config", file] => daemon::run(file),
        ["ask", "--control", path] => daemon::ask(path),
        _ => usage(),
    }
}

fn usage() -> ExitCode {
    eprintln!(
        "usage: reference [--journal | --cut N | --lives | run --config FILE | ask --control PATH]"
    );
    ExitCode::from(2)
}

/// Plays the script on standard input.
fn play(player: Player) -> ExitCode {
    let input = input::Input::read(std::io::stdin().lock());
    let mut output = output::Output::new(std::io::stdout().lock());
    match player.run(&input, &mut output) {
        Ok(()) => ExitCode::SUCCESS,
        Err(fault) => {
            eprintln!("{fault}");
            ExitCode::FAILURE
        }
    }
}
