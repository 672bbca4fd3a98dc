//! A second program for the board picture, written from the prose of the scope
//! document and of the change requests, and from what was decided on their open
//! words, to compare the first one with.
//!
//!     second holds [arguments]      what `holds` prints with these arguments for
//!                                   standard input
//!     second edges                  the expected output of the edge cases
//!     second compare HOLDS [count]  compares a `holds` program with this one
//!     second cases [count]          test cases for the C client
//!     second calls [count]          test cases for the calls on 16-bit memory,
//!                                   for saving and for storing rows
//!     second records                what `patch_report` prints for standard input
//!     second records PATCH_REPORT   compares a `patch_report` program with this one
//!     second files READ_REPORT FILE...
//!                                   compares a `read_report` program with this one
//!     second resave                 what `resave` prints for standard input
//!     second saves RESAVE FILE...   compares a `resave` program with this one
//!     second wall                   an example picture as a P5 file
//!     second chalk                  the same with chalk smears

mod arguments;
mod calls;
mod cases;
mod centre;
mod chalk;
mod comments;
mod compare;
mod damage;
mod edges;
mod file;
mod filling;
mod fills;
mod generate;
#[cfg(test)]
mod hand;
#[cfg(test)]
mod hand_touches;
mod holds;
mod lent;
mod limits;
mod literal;
mod question;
mod quick;
mod random;
mod records;
mod reports;
mod resave;
mod saves;
mod saving;
mod stores;
mod storing;
mod touches;
mod wall;
mod words;
mod worked;

use std::ffi::OsString;
use std::io::{Read, Write};
use std::os::unix::ffi::OsStringExt;
use std::process::ExitCode;

/// Bytes in hexadecimal; no bytes are a hyphen.
fn hexadecimal(bytes: &[u8]) -> String {
    if bytes.is_empty() {
        return "-".to_string();
    }
    bytes.iter().map(|byte| format!("{:02x}", byte)).collect()
}

fn print(bytes: &[u8]) -> ExitCode {
    match std::io::stdout().write_all(bytes) {
        Ok(()) => ExitCode::SUCCESS,
        Err(_) => ExitCode::FAILURE,
    }
}

/// Prints the text for standard input.
fn answer<Text: AsRef<[u8]>>(text: impl Fn(&[u8]) -> Text) -> ExitCode {
    let mut input = Vec::new();
    match std::io::stdin().read_to_end(&mut input) {
        Ok(_) => print(text(&input).as_ref()),
        Err(_) => ExitCode::FAILURE,
    }
}

fn code(equal: bool) -> ExitCode {
    if equal {
        ExitCode::SUCCESS
    } else {
        ExitCode::FAILURE
    }
}

fn usage() -> ExitCode {
    eprintln!(
        "usage: second holds [arguments] | edges | records [PATCH_REPORT] \
         | compare HOLDS [count] | cases [count] | calls [count] \
         | files READ_REPORT FILE... | resave | saves RESAVE FILE... | wall | chalk"
    );
    ExitCode::from(2)
}

fn main() -> ExitCode {
    // Arguments of `holds` may be any bytes.
    let arguments: Vec<Vec<u8>> = std::env::args_os()
        .skip(1)
        .map(OsString::into_vec)
        .collect();
    match arguments.split_first() {
        Some((first, rest)) if first == b"holds" => answer(|input| holds::text(rest, input)),
        _ => run(&arguments),
    }
}

/// Does what the arguments say, but for `holds`.
fn run(arguments: &[Vec<u8>]) -> ExitCode {
    let words: Vec<&str> = arguments
        .iter()
        .map(|argument| std::str::from_utf8(argument).unwrap_or(""))
        .collect();
    match words.as_slice() {
        ["records"] => answer(records::text),
        ["records", program] => code(records::compare(program)),
        ["edges"] => print(edges::text().as_bytes()),
        ["compare", program, rest @ ..] => match count(rest, 600) {
            Some(count) => code(compare::compare(program, count)),
            None => usage(),
        },
        ["files", program, paths @ ..] => code(reports::compare(program, paths)),
        ["resave"] => answer(resave::text),
        ["saves", program, paths @ ..] => code(resave::compare(program, paths)),
        ["cases", rest @ ..] => match count(rest, 900) {
            Some(count) => print(cases::text(count).as_bytes()),
            None => usage(),
        },
        ["calls", rest @ ..] => match count(rest, 500) {
            Some(count) => print(calls::text(count).as_bytes()),
            None => usage(),
        },
        ["wall"] => print(&wall::file()),
        ["chalk"] => print(&chalk::file()),
        _ => usage(),
    }
}

/// The count that ends the arguments, or the usual one.
fn count(rest: &[&str], usual: usize) -> Option<usize> {
    match rest {
        [] => Some(usual),
        [word] => word.parse().ok(),
        _ => None,
    }
}
