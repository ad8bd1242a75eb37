//! Prints a long scoresheet of chess or of bridge, as its one argument says, and always the same one.

mod bridge_sheet;
mod chance;
mod chess_sheet;
mod kind;
mod sheet;

use std::io::{self, Write};
use std::process::ExitCode;

fn main() -> ExitCode {
    let arguments: Vec<_> = std::env::args_os().skip(1).collect();
    let bytes = match arguments.as_slice() {
        [game] if game == "chess" => chess_sheet::generate(),
        [game] if game == "bridge" => bridge_sheet::generate(),
        _ => {
            eprintln!("usage: generate chess|bridge");
            return ExitCode::FAILURE;
        }
    };
    match io::stdout().write_all(&bytes) {
        Ok(()) => ExitCode::SUCCESS,
        Err(error) => {
            eprintln!("generate: {error}");
            ExitCode::FAILURE
        }
    }
}
