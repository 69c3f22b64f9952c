//! `second`: with no argument, the printing program; with `both`, its second form; with `type`, `show` or `form`, the typed
//! sheet's commands; with `worksheet` or `worksheet-text`, the pages that are signed; with `figures`, the definition's figures.

mod figures;
#[path = "second.rs"]
mod second;
mod typed_figures;

use std::io::{self, ErrorKind, Read, Write};
use std::process::ExitCode;

/// "`levels.bin`: absent is empty."
fn levels_file() -> io::Result<Option<Vec<u8>>> {
    match std::fs::read("levels.bin") {
        Ok(bytes) => Ok(Some(bytes)),
        Err(error) if error.kind() == ErrorKind::NotFound => Ok(None),
        Err(error) => Err(error),
    }
}

fn standard_input() -> io::Result<Vec<u8>> {
    let mut input = Vec::new();
    io::stdin().read_to_end(&mut input)?;
    Ok(input)
}

fn print() -> io::Result<()> {
    let levels = levels_file()?;
    let text = second::print::text(levels.as_deref(), &standard_input()?);
    io::stdout().write_all(text.as_bytes())
}

/// Sheets on which the engines differ are told on standard error and, as by a proved program, not by the status.
fn print_both() -> io::Result<()> {
    let levels = levels_file()?;
    let (text, said) = second::print::both(levels.as_deref(), &standard_input()?);
    io::stdout().write_all(text.as_bytes())?;
    io::stderr().write_all(said.as_bytes())
}

/// A text with a fault is told on standard error and, as by a proved program, not by the status.
fn type_text() -> io::Result<()> {
    let (bytes, said) = second::typed::type_text(&standard_input()?);
    io::stdout().write_all(&bytes)?;
    io::stderr().write_all(&said)
}

fn show() -> io::Result<()> {
    io::stdout().write_all(&second::typed::show(&standard_input()?))
}

fn form() -> io::Result<()> {
    io::stdout().write_all(&second::typed::form())
}

/// The pages of bytes, or of a text; a fault is told as by `type`.
fn worksheet(pages: fn(Option<&[u8]>, &[u8]) -> (Vec<u8>, Vec<u8>)) -> io::Result<()> {
    let levels = levels_file()?;
    let (text, said) = pages(levels.as_deref(), &standard_input()?);
    io::stdout().write_all(&text)?;
    io::stderr().write_all(&said)
}

fn is_done(done: io::Result<()>) -> bool {
    done.map_err(|error| eprintln!("second: {error}")).is_ok()
}

fn main() -> ExitCode {
    let arguments: Vec<String> = std::env::args().skip(1).collect();
    let words: Vec<&str> = arguments.iter().map(String::as_str).collect();
    let right = match words[..] {
        [] => is_done(print()),
        ["both"] => is_done(print_both()),
        ["type"] => is_done(type_text()),
        ["show"] => is_done(show()),
        ["form"] => is_done(form()),
        ["worksheet"] => is_done(worksheet(second::worksheet::of_bytes)),
        ["worksheet-text"] => is_done(worksheet(second::worksheet::of_text)),
        ["figures"] => figures::all_right() & typed_figures::all_right(),
        _ => {
            eprintln!(
                "second: no argument, `both`, `type`, `show`, `form`, `worksheet`, `worksheet-text` or `figures`"
            );
            false
        }
    };
    if right {
        ExitCode::SUCCESS
    } else {
        ExitCode::FAILURE
    }
}
