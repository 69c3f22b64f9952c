//! The program, run as it is used: levels.bin in the current folder, sheets or a text on standard input.

use std::fs::{self, File};
use std::io::Write;
use std::path::PathBuf;
use std::process::{exit, Command, Output, Stdio};

/// A folder of its own below target/, so that several can run at once.
fn folder(name: &str) -> PathBuf {
    let folder = PathBuf::from("target/printing").join(name);
    fs::create_dir_all(&folder).expect("a folder below target/");
    folder
}

/// The words of the variable PROGRAM start the program.
fn command() -> Command {
    let words = std::env::var("PROGRAM").expect("PROGRAM names the printing program");
    let mut words = words.split_whitespace();
    let mut command = Command::new(words.next().expect("PROGRAM is empty"));
    command.args(words);
    command
}

/// Puts a record, or none, in the folder of a run.
pub fn set_levels(name: &str, levels: Option<&[u8]>) {
    let file = folder(name).join("levels.bin");
    match levels {
        Some(bytes) => fs::write(file, bytes).expect("levels.bin is written"),
        None => drop(fs::remove_file(file)),
    }
}

/// What it prints. It must end well and say nothing on standard error; its inputs are kept where it does not.
pub fn printed(name: &str, levels: Option<&[u8]>, sheets: &[u8]) -> Vec<u8> {
    set_levels(name, levels);
    let folder = folder(name);
    let sheets_file = folder.join("sheets.bin");
    fs::write(&sheets_file, sheets).expect("sheets.bin is written");
    let input = File::open(&sheets_file).expect("sheets.bin is there");
    let ran = command()
        .current_dir(&folder)
        .stdin(input)
        .output()
        .expect("the printing program starts");
    if !ran.status.success() || !ran.stderr.is_empty() {
        println!("{name}: {}; its inputs are in {folder:?}", ran.status);
        println!("  it said {:?}", String::from_utf8_lossy(&ran.stderr));
        exit(1);
    }
    ran.stdout
}

/// What it writes to standard output and to standard error.
pub type Written = (Vec<u8>, Vec<u8>);

/// What it writes where it is started with one more word, and its input is a file, which is kept. It must end well.
pub fn written(name: &str, word: &str, input: &[u8]) -> Written {
    let folder = folder(name);
    let file = folder.join("input");
    fs::write(&file, input).expect("the input is written");
    let ran = command()
        .arg(word)
        .current_dir(&folder)
        .stdin(File::open(&file).expect("the input is there"))
        .output()
        .expect("the program starts");
    ended_well(name, ran)
}

/// The same where its input is a pipe, which hands it over in pieces.
pub fn written_from_pipe(name: &str, word: &str, input: &[u8]) -> Written {
    let mut started = command()
        .arg(word)
        .current_dir(folder(name))
        .stdin(Stdio::piped())
        .stdout(Stdio::piped())
        .stderr(Stdio::piped())
        .spawn()
        .expect("the program starts");
    let mut pipe = started.stdin.take().expect("a pipe is its input");
    let ran = std::thread::scope(|scope| {
        // it need not read an input to the end that it does not take
        scope.spawn(move || drop(pipe.write_all(input)));
        started.wait_with_output().expect("the program ends")
    });
    ended_well(name, ran)
}

fn ended_well(name: &str, ran: Output) -> Written {
    if !ran.status.success() {
        println!("{name}: {}", ran.status);
        println!("  it said {:?}", String::from_utf8_lossy(&ran.stderr));
        exit(1);
    }
    (ran.stdout, ran.stderr)
}

/// Takes the inputs of a run away.
pub fn forget(name: &str) {
    fs::remove_dir_all(folder(name)).expect("the folder is removed");
}
