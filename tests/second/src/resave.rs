//! What the program `resave` prints, and a comparison of such a program with
//! this one.
//!
//! It reads one file of at most 4,096 bytes from standard input and prints its
//! picture as a file with the shortest header, or the line `refused` with the
//! number. Words behind its name make no difference.

use crate::comments;
use crate::compare::printed;
use crate::damage;
use crate::edges;
use crate::file;
use crate::generate;
use crate::hexadecimal;
use crate::random::Random;
use crate::reports::{given_file, truncations};
use crate::saving;

/// How many pictures are generated; two files are made of each.
const PICTURES: usize = 300;

/// How many damaged files are generated.
const DAMAGED: usize = 500;

/// What `resave` prints for an input. Reading has tested all that saving
/// tests, so that no refusal is added.
pub fn text(input: &[u8]) -> Vec<u8> {
    match file::read_input(input) {
        Ok(accepted) => saving::file_of(
            (accepted.width as u32, accepted.height as u32),
            accepted.largest as u32,
            &input[accepted.offset..],
        ),
        Err(refusal) => format!("refused {}\n", refusal.number).into_bytes(),
    }
}

/// The file with each byte in turn changed, most often to one that a header
/// has.
fn changes(random: &mut Random, file: &[u8]) -> Vec<Vec<u8>> {
    (0..file.len())
        .map(|place| {
            let mut changed = file.to_vec();
            changed[place] = random.one_of(b"#P5\t\n\r  0123456789\x00\xff");
            if changed[place] == file[place] {
                changed[place] ^= 1;
            }
            changed
        })
        .collect()
}

/// Two files of each of some pictures, and damaged ones.
fn generated_files() -> Vec<Vec<u8>> {
    let mut random = Random::new(60_004);
    let mut files = Vec::new();
    for _ in 0..PICTURES {
        let picture = generate::any_picture(&mut random);
        files.extend([0; 2].map(|_| damage::accepted_file(&mut random, &picture)));
    }
    files.extend((0..DAMAGED).map(|_| damage::damaged_file(&mut random)));
    files
}

/// Files at the limits: the edge cases of `holds`, one for each set of causes,
/// those with comments worked by hand, and some that are much too long.
fn files_at_the_limits() -> Vec<Vec<u8>> {
    let cases = edges::edge_cases().into_iter();
    let mut files: Vec<Vec<u8>> = cases
        .filter(|run| run.arguments.is_empty())
        .map(|run| run.input)
        .collect();
    files.extend(damage::files_for_the_order());
    files.extend(comments::files());
    for length in [4098, 8192, 65_536, 65_537, 200_000] {
        // A fit file in the first bytes.
        let mut file = b"P5\n1 1\n9\n\x09".to_vec();
        file.resize(length, 0);
        files.push(file);
    }
    files
}

/// The words behind the name of the program, in turn.
const WORDS: [&[&str]; 6] = [
    &[""],
    &["1"],
    &["0"],
    &["-h"],
    &["a", "b"],
    &["resave", "", "9"],
];

/// The words behind the name of the program, and its input.
type Run = (Vec<Vec<u8>>, Vec<u8>);

/// Runs with words; the files are those at the limits.
fn runs_with_words() -> Vec<Run> {
    let words = WORDS.iter().cycle();
    files_at_the_limits()
        .into_iter()
        .zip(words)
        .map(|(file, words)| {
            let arguments = words.iter().map(|word| word.as_bytes().to_vec());
            (arguments.collect(), file)
        })
        .collect()
}

/// Runs without words.
fn runs_without_words(files: Vec<Vec<u8>>) -> Vec<Run> {
    files.into_iter().map(|file| (Vec::new(), file)).collect()
}

/// Each kind of runs with its name.
fn kinds_of_runs(files: Vec<Vec<u8>>) -> Vec<(&'static str, Vec<Run>)> {
    let mut random = Random::new(60_005);
    let truncated = files.iter().flat_map(|file| truncations(file)).collect();
    let changed = files
        .iter()
        .flat_map(|file| changes(&mut random, file))
        .collect();
    vec![
        ("as they are", runs_without_words(files)),
        ("truncated", runs_without_words(truncated)),
        ("changed", runs_without_words(changed)),
        ("generated", runs_without_words(generated_files())),
        ("at the limits", runs_without_words(files_at_the_limits())),
        ("with words", runs_with_words()),
    ]
}

/// Whether the program prints these bytes; says what differs.
fn prints(program: &str, (words, input): &Run, expected: &[u8]) -> bool {
    let given = printed(program, words, input);
    if given.as_deref() == Ok(expected) {
        return true;
    }
    let words: Vec<String> = words.iter().map(|word| hexadecimal(word)).collect();
    println!("words, as bytes: {}", words.join(" "));
    println!("bytes: {}", hexadecimal(input));
    println!("expected: {}", hexadecimal(expected));
    match given {
        Ok(bytes) => println!("given: {}", hexadecimal(&bytes)),
        Err(message) => println!("given: {}", message),
    }
    false
}

/// How many runs were accepted and how many refused.
#[derive(Default)]
struct Counts {
    accepted: usize,
    refused: usize,
}

impl Counts {
    /// Compares a run. An accepted file must not grow, and what is printed for
    /// it must be printed again for this.
    fn compare(&mut self, program: &str, run: &Run) -> bool {
        let expected = text(&run.1);
        if !prints(program, run, &expected) {
            return false;
        }
        if file::read_input(&run.1).is_err() {
            self.refused += 1;
            return true;
        }
        self.accepted += 1;
        if expected.len() > run.1.len() {
            println!("longer than the file: {}", hexadecimal(&expected));
            return false;
        }
        let again = (run.0.clone(), expected.clone());
        prints(program, &again, &expected)
    }
}

/// Compares the files at the paths, files made of them, and others; answers
/// whether all were equal. Some must be accepted and some refused.
pub fn compare(program: &str, paths: &[&str]) -> bool {
    let given: Option<Vec<Vec<u8>>> = paths.iter().map(|path| given_file(path)).collect();
    let Some(files) = given else {
        return false;
    };
    let mut counts = Counts::default();
    let mut parts = Vec::new();
    for (name, runs) in kinds_of_runs(files) {
        if !runs.iter().all(|run| counts.compare(program, run)) {
            return false;
        }
        parts.push(format!("{} {}", runs.len(), name));
    }
    println!(
        "saves: {}; {} accepted, {} refused, 0 differ",
        parts.join(", "),
        counts.accepted,
        counts.refused
    );
    counts.accepted > 0 && counts.refused > 0
}

#[cfg(test)]
mod tests {
    use super::*;
    use std::collections::BTreeMap;

    const H3: &[u8] = b"P5\n5 1\n9\n\x03\x01\x04\x00\x02";

    #[test]
    fn worked_texts() {
        assert_eq!(text(H3), H3);
        let files: [&[u8]; 4] = [
            b"P5 5 1 9 \x03\x01\x04\x00\x02",
            b"P5\r\n005\t00001\n\n09\r\x03\x01\x04\x00\x02",
            b"P5\n# 7 7\n5 #\r1\n9\n\x03\x01\x04\x00\x02",
            b"P5\n5 1\n#a\r#b\n 9 \x03\x01\x04\x00\x02",
        ];
        for file in files {
            assert_eq!(text(file), H3, "{:?}", file);
        }
        // Another largest sample is another picture.
        let file = b"P5\n5 1\n010\n\x03\x01\x04\x00\x02";
        assert_eq!(text(file), b"P5\n5 1\n10\n\x03\x01\x04\x00\x02");
        // White space behind the header is a pixel.
        assert_eq!(text(b"P5 02 1 255 \n#"), b"P5\n2 1\n255\n\n#");
    }

    #[test]
    fn worked_refusals() {
        let files: [(&[u8], &[u8]); 7] = [
            (b"", b"refused 1\n"),
            (b"P2\n5 1\n9\n3 1 4 0 2\n", b"refused 1\n"),
            (b"P5\n5 1\n9#", b"refused 2\n"),
            (b"P5\n41 1\n0\n", b"refused 3\n"),
            (b"P5\n5 1\n256\n", b"refused 4\n"),
            (b"P5\n5 1\n9\n\x0a\x01\x04\x00", b"refused 5\n"),
            (b"P5\n5 1\n9\n\x03\x01\x0a\x00\x02", b"refused 6\n"),
        ];
        for (file, refused) in files {
            assert_eq!(text(file), refused, "{:?}", file);
        }
        assert_eq!(text(&[0; 4096]), b"refused 1\n");
        assert_eq!(text(&[0; 4097]), b"refused 12\n");
    }

    #[test]
    fn two_files_of_a_picture_and_what_is_printed_for_them() {
        let files = generated_files();
        for pair in files[..2 * PICTURES].chunks(2) {
            let printed = text(&pair[0]);
            assert_eq!(text(&pair[1]), printed);
            assert_eq!(text(&printed), printed);
        }
        let differ = |pair: &&[Vec<u8>]| pair[0] != pair[1];
        let pairs = files[..2 * PICTURES].chunks(2);
        assert!(pairs.filter(differ).count() > PICTURES / 2);
    }

    #[test]
    fn every_refusal_occurs() {
        let mut counts: BTreeMap<u32, usize> = BTreeMap::new();
        for file in generated_files().iter().chain(&files_at_the_limits()) {
            let number = file::read_input(file).map_or_else(|refusal| refusal.number, |_| 0);
            *counts.entry(number).or_insert(0) += 1;
        }
        for number in [0, 1, 2, 3, 4, 5, 6, 12] {
            assert!(counts[&number] >= 10, "{:?}", counts);
        }
    }
}
