//! Runs files through a given `read_report` program and through this one.
//!
//! The program reads one file of at most 65,536 bytes from standard input and
//! prints one line of six numbers: the refusal's number or 0, its place, the
//! width, the height, the largest sample and the offset of the pixels. The
//! place is the offset for 2 and the first place for 6, else 0; the last four
//! are 0 for a refused file.

use crate::comments;
use crate::compare::printed;
use crate::damage;
use crate::file;
use crate::generate;
use crate::hexadecimal;
use crate::random::Random;

/// The longest file that the program takes.
const FILE_LIMIT: usize = 65_536;

/// How many files are generated.
const GENERATED: usize = 1500;

/// The line for a file.
fn line(file: &[u8]) -> String {
    match file::read(file) {
        Ok(accepted) => format!(
            "0 0 {} {} {} {}\n",
            accepted.width, accepted.height, accepted.largest, accepted.offset
        ),
        Err(refusal) => {
            let place = refusal.detail.unwrap_or(0);
            format!("{} {} 0 0 0 0\n", refusal.number, place)
        }
    }
}

/// The file at a path; else says why there is none.
pub fn given_file(path: &str) -> Option<Vec<u8>> {
    match std::fs::read(path) {
        Ok(file) if file.len() <= FILE_LIMIT => return Some(file),
        Ok(_) => println!("{}: over {} bytes", path, FILE_LIMIT),
        Err(error) => println!("{}: {}", path, error),
    }
    None
}

/// The file cut to every length below its own.
pub fn truncations(file: &[u8]) -> impl Iterator<Item = Vec<u8>> + '_ {
    (0..file.len()).map(|length| file[..length].to_vec())
}

/// The file with each byte in turn changed to #.
fn changes(file: &[u8]) -> impl Iterator<Item = Vec<u8>> + '_ {
    let places = (0..file.len()).filter(|place| file[*place] != b'#');
    places.map(|place| {
        let mut changed = file.to_vec();
        changed[place] = b'#';
        changed
    })
}

/// A file of a small picture, every other one damaged.
fn generated_file(random: &mut Random, index: usize) -> Vec<u8> {
    if index % 2 == 1 {
        return damage::damaged_file(random);
    }
    let sides = (random.between(1, 9), random.between(1, 9));
    let picture = generate::picture(random, sides);
    damage::accepted_file(random, &picture)
}

fn generated_files() -> impl Iterator<Item = Vec<u8>> {
    let mut random = Random::new(50_001);
    (0..GENERATED).map(move |index| generated_file(&mut random, index))
}

/// Compares one file; says what differs.
fn is_equal(program: &str, file: &[u8]) -> bool {
    let expected = line(file);
    let given = printed(program, &[], file);
    if given.as_deref() == Ok(expected.as_bytes()) {
        return true;
    }
    println!("bytes: {}", hexadecimal(file));
    println!("expected: {:?}", expected);
    match given {
        Ok(bytes) => println!("given: {:?}", String::from_utf8_lossy(&bytes)),
        Err(message) => println!("given: {}", message),
    }
    false
}

/// Compares files up to the first that differs. Answers how many they are, and
/// adds those that are accepted to the count.
fn compare_all(
    program: &str,
    files: impl Iterator<Item = Vec<u8>>,
    accepted: &mut usize,
) -> Option<usize> {
    let mut count = 0;
    for file in files {
        if !is_equal(program, &file) {
            return None;
        }
        count += 1;
        *accepted += usize::from(file::read(&file).is_ok());
    }
    Some(count)
}

/// Compares the files in every way; answers the line of counts.
fn counts(program: &str, files: &[Vec<u8>]) -> Option<String> {
    let mut accepted = 0;
    let whole = compare_all(program, files.iter().cloned(), &mut accepted)?;
    let cut = files.iter().flat_map(|file| truncations(file));
    let cut = compare_all(program, cut, &mut accepted)?;
    let changed = files.iter().flat_map(|file| changes(file));
    let changed = compare_all(program, changed, &mut accepted)?;
    let generated = compare_all(program, generated_files(), &mut accepted)?;
    Some(format!(
        "files: {} as they are, {} truncated, {} changed to #, {} generated; {} accepted, 0 differ",
        whole, cut, changed, generated, accepted
    ))
}

/// Compares the files at the paths, those with comments and generated ones;
/// answers whether all were equal.
pub fn compare(program: &str, paths: &[&str]) -> bool {
    let given: Option<Vec<Vec<u8>>> = paths.iter().map(|path| given_file(path)).collect();
    let Some(mut files) = given else {
        return false;
    };
    files.extend(comments::files());
    match counts(program, &files) {
        Some(text) => {
            println!("{}", text);
            true
        }
        None => false,
    }
}

#[cfg(test)]
mod tests {
    use super::*;
    use std::collections::BTreeMap;

    #[test]
    fn lines() {
        for (file, [width, height, largest, offset]) in comments::ACCEPTED {
            let figures = format!("0 0 {} {} {} {}\n", width, height, largest, offset);
            assert_eq!(line(file), figures);
        }
        assert_eq!(line(b""), "1 0 0 0 0 0\n");
        assert_eq!(line(b"P5\n#"), "2 4 0 0 0 0\n");
        assert_eq!(line(b"P5\n41 1\n9\n"), "3 0 0 0 0 0\n");
        assert_eq!(line(b"P5\n2 1\n0\n"), "4 0 0 0 0 0\n");
        assert_eq!(line(b"P5\n2 1\n9\n"), "5 0 0 0 0 0\n");
        assert_eq!(line(b"P5\n2 1\n9\n\x00\x0a"), "6 1 0 0 0 0\n");
    }

    #[test]
    fn files_made_of_one() {
        let cut: Vec<Vec<u8>> = truncations(b"P5#").collect();
        assert_eq!(cut, [&b""[..], b"P", b"P5"]);
        let changed: Vec<Vec<u8>> = changes(b"P5#").collect();
        assert_eq!(changed, [b"#5#", b"P##"]);
    }

    #[test]
    fn generated_files_of_every_number() {
        let mut counts: BTreeMap<u32, usize> = BTreeMap::new();
        for file in generated_files() {
            let number = file::read(&file).map_or_else(|refusal| refusal.number, |_| 0);
            *counts.entry(number).or_insert(0) += 1;
        }
        for number in 1..=6 {
            assert!(counts[&number] >= 15, "{:?}", counts);
        }
        assert!((700..=1000).contains(&counts[&0]), "{:?}", counts);
    }
}
