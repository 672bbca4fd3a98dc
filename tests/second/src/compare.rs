//! Runs files, without and with arguments, through a given `holds` program and
//! through this one.

use crate::chalk;
use crate::comments;
use crate::damage;
use crate::edges;
use crate::file;
use crate::generate;
use crate::hexadecimal;
use crate::holds::Run;
use crate::random::Random;
use crate::wall;
use crate::words;
use crate::worked;
use std::ffi::OsString;
use std::io::Write;
use std::os::unix::ffi::OsStringExt;
use std::process::{Command, Stdio};

/// What the program prints for these arguments and this input, and how it
/// ended if by a signal.
pub fn printed(program: &str, arguments: &[Vec<u8>], input: &[u8]) -> Result<Vec<u8>, String> {
    let mut child = Command::new(program)
        .args(arguments.iter().cloned().map(OsString::from_vec))
        .stdin(Stdio::piped())
        .stdout(Stdio::piped())
        .spawn()
        .map_err(|error| format!("cannot start {}: {}", program, error))?;
    // The program may stop reading early; an error here is no failure.
    let _ = child.stdin.take().unwrap().write_all(input);
    let output = child
        .wait_with_output()
        .map_err(|error| format!("no output: {}", error))?;
    if output.status.code().is_none() {
        return Err(format!("ended by a signal: {}", output.status));
    }
    Ok(output.stdout)
}

/// The name and bytes of all files that are compared without arguments.
fn files(count: usize) -> Vec<(String, Vec<u8>)> {
    let mut files = vec![
        ("wall example".to_string(), wall::file()),
        ("chalk example".to_string(), chalk::file()),
    ];
    for (set, file) in damage::files_for_the_order().into_iter().enumerate() {
        files.push((format!("order {}", set), file));
    }
    for (index, file) in comments::files().into_iter().enumerate() {
        files.push((format!("comments {}", index), file));
    }
    for (index, file) in files_of_depths().into_iter().enumerate() {
        files.push((format!("depths {}", index), file));
    }
    for (index, (picture, _)) in worked::centres().iter().enumerate() {
        files.push((format!("centres {}", index), worked::file_of(picture)));
    }
    let mut random = Random::new(20_001);
    files.extend((0..count).map(|index| generated_file(&mut random, index)));
    files
}

/// The pictures worked by hand for depths.
pub fn files_of_depths() -> Vec<Vec<u8>> {
    let pictures = worked::depths().into_iter().chain(worked::staircases());
    pictures
        .map(|(picture, _)| worked::file_of(&picture))
        .collect()
}

/// Every third generated file is damaged.
fn generated_file(random: &mut Random, index: usize) -> (String, Vec<u8>) {
    if index % 3 == 2 {
        return (format!("{} damaged", index), damage::damaged_file(random));
    }
    let picture = generate::any_picture(random);
    let file = damage::accepted_file(random, &picture);
    assert!(file::read_input(&file).is_ok());
    (format!("{} {}", index, picture.kind), file)
}

/// A run of a file for each list of arguments.
fn runs_of(name: &str, file: &[u8], lists: Vec<Vec<Vec<u8>>>) -> Vec<Run> {
    lists
        .into_iter()
        .map(|arguments| Run {
            name: name.to_string(),
            arguments,
            input: file.to_vec(),
        })
        .collect()
}

/// The files for the order of refusals: each with a fit size and with some of
/// the wrong arguments, those with one cause or none with all of them.
fn runs_for_the_order() -> Vec<Run> {
    let mut runs = Vec::new();
    let wrong = words::wrong();
    for (set, file) in damage::files_for_the_order().into_iter().enumerate() {
        // The picture has 6 pixels.
        let mut lists: Vec<Vec<Vec<u8>>> = ["1", "6", "00002", "0", "7"]
            .map(|word| vec![word.as_bytes().to_vec()])
            .to_vec();
        if set.count_ones() <= 1 {
            lists.extend(wrong.clone());
        } else {
            lists.extend((0..4).map(|turn| wrong[(4 * set + turn) % wrong.len()].clone()));
        }
        runs.extend(runs_of(&format!("order {}", set), &file, lists));
    }
    runs
}

/// The examples with each size up to 24, and some above.
fn runs_of_examples() -> Vec<Run> {
    let mut runs = Vec::new();
    for (name, file) in [("wall", wall::file()), ("chalk", chalk::file())] {
        let sizes = (0..=24).chain([100, 1599, 1600, 1601]);
        let lists = sizes.map(|size| vec![size.to_string().into_bytes()]);
        runs.extend(runs_of(name, &file, lists.collect()));
    }
    runs
}

/// Runs of a generated file with arguments: an accepted one with several sizes
/// and a wrong argument, a damaged one with a size and a wrong argument.
fn generated_runs(random: &mut Random, index: usize) -> Vec<Run> {
    let (name, file) = generated_file(random, index);
    let sizes = match file::read_input(&file) {
        Ok(accepted) => words::sizes(random, accepted.width * accepted.height),
        Err(_) => vec![random.between(1, 1600)],
    };
    let mut lists: Vec<Vec<Vec<u8>>> = sizes
        .into_iter()
        .map(|size| vec![words::word_of(random, size)])
        .collect();
    lists.push(random.one_of(&words::wrong()));
    runs_of(&name, &file, lists)
}

/// All runs: first those without arguments.
fn runs(count: usize) -> Vec<Run> {
    let mut runs: Vec<Run> = files(count)
        .into_iter()
        .flat_map(|(name, file)| runs_of(&name, &file, vec![Vec::new()]))
        .collect();
    runs.extend(edges::edge_cases());
    runs.extend(runs_for_the_order());
    runs.extend(runs_of_examples());
    let mut random = Random::new(20_002);
    runs.extend((0..count / 4).flat_map(|index| generated_runs(&mut random, index)));
    runs
}

fn print_run(run: &Run) {
    println!("file: {}", run.name);
    println!("bytes: {}", hexadecimal(&run.input));
    let arguments: Vec<String> = run.arguments.iter().map(|word| hexadecimal(word)).collect();
    println!("arguments, as bytes: {}", arguments.join(" "));
    if let Ok(accepted) = file::read_input(&run.input) {
        println!("picture, {} by {}:", accepted.width, accepted.height);
        for row in run.input[accepted.offset..].chunks(accepted.width) {
            let words: Vec<String> = row.iter().map(|pixel| pixel.to_string()).collect();
            println!("{}", words.join(" "));
        }
    }
}

/// How many runs were accepted and how many refused.
#[derive(Default)]
struct Counts {
    accepted: usize,
    refused: usize,
}

impl Counts {
    fn count(&mut self, text: &str) {
        if text.starts_with("refused") {
            self.refused += 1;
        } else {
            self.accepted += 1;
        }
    }
}

/// Compares; answers whether all were equal.
pub fn compare(program: &str, count: usize) -> bool {
    let mut all = Counts::default();
    let mut with_arguments = Counts::default();
    for run in runs(count) {
        let expected = run.text();
        let given = printed(program, &run.arguments, &run.input);
        if given.as_deref() != Ok(expected.as_bytes()) {
            print_run(&run);
            println!("expected:\n{}", expected);
            match given {
                Ok(bytes) => println!("given:\n{}", String::from_utf8_lossy(&bytes)),
                Err(message) => println!("given: {}", message),
            }
            return false;
        }
        all.count(&expected);
        if !run.arguments.is_empty() {
            with_arguments.count(&expected);
        }
    }
    println!(
        "{} accepted, {} refused, of these with arguments {} and {}",
        all.accepted, all.refused, with_arguments.accepted, with_arguments.refused
    );
    println!("{} compared, 0 differ", all.accepted + all.refused);
    true
}

#[cfg(test)]
mod tests {
    use super::*;
    use crate::holds;
    use std::collections::BTreeMap;

    #[test]
    fn every_refusal_occurs() {
        let mut counts: BTreeMap<u32, usize> = BTreeMap::new();
        for (_, file) in files(1500) {
            let number = match file::read_input(&file) {
                Ok(_) => 0,
                Err(refusal) => refusal.number,
            };
            *counts.entry(number).or_insert(0) += 1;
        }
        for number in [0, 1, 2, 3, 4, 5, 6, 12] {
            assert!(counts[&number] >= 8, "{:?}", counts);
        }
    }

    /// Whether the arguments are refused with every picture.
    fn are_wrong(arguments: &[Vec<u8>]) -> bool {
        match arguments {
            [] => false,
            [word] => holds::least_size(word, 1600).is_none(),
            _ => true,
        }
    }

    #[test]
    fn every_refusal_occurs_with_wrong_arguments() {
        let mut counts: BTreeMap<u32, usize> = BTreeMap::new();
        let mut fit = 0;
        for run in runs(600) {
            let text = run.text();
            match text.strip_prefix("refused ") {
                Some(number) if are_wrong(&run.arguments) => {
                    let number = number.trim_end().parse().unwrap();
                    *counts.entry(number).or_insert(0) += 1;
                }
                None if !run.arguments.is_empty() => fit += 1,
                _ => {}
            }
        }
        for number in [1, 2, 3, 4, 5, 6, 12] {
            assert!(counts[&number] >= 60, "{:?}", counts);
        }
        assert!(counts[&13] >= 150, "{:?}", counts);
        assert!(fit >= 500, "{}", fit);
    }
}
