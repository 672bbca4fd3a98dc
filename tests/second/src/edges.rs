//! The edge cases: for each one a name line and what `holds` prints; then some
//! of the handbook, with a line of patches or of a refusal.

use crate::holds::Run;
use crate::question::{touch_query_of, Call, Question};
use crate::worked::{centres, file_of};

/// Pixel number `index` of an edge file.
fn edge_pixel(index: usize, largest: usize) -> u8 {
    ((index * index * 31 + index * 17) % (largest.min(255) + 1)) as u8
}

/// A header and so many pixels.
fn with_pixels(mut header: Vec<u8>, count: usize, largest: usize) -> Vec<u8> {
    header.extend((0..count).map(|index| edge_pixel(index, largest)));
    header
}

/// An edge file, with `spaces` added right after the first byte 10.
fn edge_file(width: usize, height: usize, largest: usize, count: usize, spaces: usize) -> Vec<u8> {
    let mut header = b"P5\n".to_vec();
    header.extend(vec![b' '; spaces]);
    header.extend(format!("{} {}\n{}\n", width, height, largest).bytes());
    with_pixels(header, count, largest)
}

/// The file with these sides, largest sample 255.
fn file_of_sides(width: usize, height: usize) -> Vec<u8> {
    edge_file(width, height, 255, width * height, 0)
}

/// The file of 3 by 2 with so many pixels.
fn file_of_pixels(count: usize) -> Vec<u8> {
    edge_file(3, 2, 255, count, 0)
}

/// The file of 40 by 40 with so many bytes.
fn file_of_bytes(length: usize) -> Vec<u8> {
    let length_without_spaces = file_of_sides(40, 40).len();
    let file = edge_file(40, 40, 255, 1600, length - length_without_spaces);
    assert_eq!(file.len(), length);
    file
}

/// The file of 3 by 2 with so many bytes, most of them of a comment.
fn file_of_comment(length: usize) -> Vec<u8> {
    let end = b"\n3 2\n255\n";
    let mut header = b"P5\n".to_vec();
    header.resize(length - 6 - end.len(), b'#');
    header.extend(end);
    with_pixels(header, 6, 255)
}

/// The names and headers of the edge cases with comments.
const HEADERS_WITH_COMMENTS: [(&str, &[u8]); 10] = [
    ("comment first", b"P5\n#\n3 2\n255\n"),
    ("comment second", b"P5\n3 #\r2\n255\n"),
    ("comment third", b"P5\n3 2\n#1#\n\t#2\r255\n"),
    ("comment after P5", b"P5#\n3 2\n255\n"),
    ("comment in largest", b"P5\n3 2\n2#\n55\n"),
    ("comment after largest", b"P5\n3 2\n255#\n\n"),
    ("comment after header", b"P5\n3 2\n255\n#\n"),
    ("comment without end", b"P5\n3 2\n#255 "),
    ("comment byte 12", b"P5\n#\x0c3 2\n255\n"),
    ("comment byte 32", b"P5\n# 3 2\n255\n"),
];

/// The names and files of the edge cases with comments, in order.
fn cases_of_comments() -> Vec<(String, Vec<u8>)> {
    let mut cases: Vec<(String, Vec<u8>)> = HEADERS_WITH_COMMENTS
        .iter()
        .map(|(name, header)| (name.to_string(), with_pixels(header.to_vec(), 6, 255)))
        .collect();
    for length in [4096, 4097] {
        cases.push((format!("comment {}", length), file_of_comment(length)));
    }
    cases
}

/// The rows of the edge cases of depths.
const ROWS: [&[u8]; 5] = [
    &[0, 2, 1, 9, 5],
    &[0, 255, 0],
    &[254, 255, 254],
    &[2, 7, 2, 5, 2],
    &[1, 3, 2, 5, 4, 8, 0],
];

/// The name and the file of a row.
fn case_of_row(row: &[u8]) -> (String, Vec<u8>) {
    let name = row.iter().fold("row".to_string(), |name, value| {
        format!("{} {}", name, value)
    });
    let mut file = format!("P5\n{} 1\n255\n", row.len()).into_bytes();
    file.extend(row);
    (name, file)
}

/// The names and files of the edge cases without an argument, in order.
fn cases_of_files() -> Vec<(String, Vec<u8>)> {
    let mut cases = Vec::new();
    for width in [0, 1, 40, 41] {
        for height in [0, 1, 40, 41] {
            let file = file_of_sides(width, height);
            cases.push((format!("sides {} {}", width, height), file));
        }
    }
    for largest in [0, 1, 255, 256] {
        let file = edge_file(3, 2, largest, 6, 0);
        cases.push((format!("largest {}", largest), file));
    }
    for count in [5, 6, 7] {
        cases.push((format!("pixels {}", count), file_of_pixels(count)));
    }
    cases.push(("empty".to_string(), Vec::new()));
    for length in [4096, 4097] {
        cases.push((format!("bytes {}", length), file_of_bytes(length)));
    }
    cases.extend(cases_of_comments());
    cases.extend(ROWS.iter().map(|row| case_of_row(row)));
    let (halves, _) = &centres()[0];
    cases.push(("centres at a half".to_string(), file_of(halves)));
    cases
}

/// The name, the arguments and the file of those with arguments, in order.
fn cases_of_arguments() -> Vec<(&'static str, &'static [&'static str], Vec<u8>)> {
    let six = || file_of_pixels(6);
    vec![
        ("size 0", &["0"], six()),
        ("size 1", &["1"], six()),
        ("size 6", &["6"], six()),
        ("size 7", &["7"], six()),
        ("digits 5", &["00006"], six()),
        ("digits 6", &["000006"], six()),
        ("argument empty", &[""], six()),
        ("argument 6x", &["6x"], six()),
        ("arguments 6 6", &["6", "6"], six()),
        ("size 1600", &["1600"], file_of_sides(40, 40)),
        ("size 1601", &["1601"], file_of_sides(40, 40)),
        ("size 0 sides 41 41", &["0"], file_of_sides(41, 41)),
        ("size 0 bytes 4097", &["0"], file_of_bytes(4097)),
    ]
}

/// All edge cases of `holds`, in order.
pub fn edge_cases() -> Vec<Run> {
    let without = cases_of_files().into_iter().map(|(name, input)| Run {
        name,
        arguments: Vec::new(),
        input,
    });
    let with = cases_of_arguments()
        .into_iter()
        .map(|(name, words, input)| Run {
            name: name.to_string(),
            arguments: words.iter().map(|word| word.as_bytes().to_vec()).collect(),
            input,
        });
    without.chain(with).collect()
}

/// The names, handbooks and adjacencies of the edge cases of the handbook, in
/// order.
const CASES_OF_HANDBOOKS: [(&str, u32, u32); 6] = [
    ("handbook 3", 3, 4),
    ("handbook 4", 4, 4),
    ("handbook 5", 5, 4),
    ("handbook 6", 6, 4),
    ("handbook 3 adjacency 5", 3, 5),
    ("handbook 5 adjacency 5", 5, 5),
];

/// The patches of the places of the first of the rows, touched under a handbook,
/// 0 for none; or the refusal.
fn text_of_touches(handbook: u32, adjacency: u32) -> String {
    let row = ROWS[0];
    let call = Call {
        adjacency,
        sides: (row.len() as u32, 1),
        pixels: row.to_vec(),
        question: Question::Touch { handbook, place: 0 },
        work_length: 5 * row.len(),
    };
    let number = call.refusal();
    if number != 0 {
        return format!("refused {}\n", number);
    }
    let patches: Vec<String> = (0..row.len())
        .map(|place| touch_query_of(&call.picture(), handbook, place))
        .map(|answer| answer.patch.unwrap_or(0).to_string())
        .collect();
    patches.join(" ") + "\n"
}

pub fn text() -> String {
    let of_holds = edge_cases()
        .into_iter()
        .map(|run| format!("{}\n{}", run.name, run.text()));
    let of_handbooks = CASES_OF_HANDBOOKS
        .iter()
        .map(|(name, handbook, adjacency)| {
            format!("{}\n{}", name, text_of_touches(*handbook, *adjacency))
        });
    of_holds.chain(of_handbooks).collect()
}

#[cfg(test)]
mod tests {
    use super::*;

    fn text_of(wanted: &str) -> String {
        let cases = edge_cases();
        cases.iter().find(|run| run.name == wanted).unwrap().text()
    }

    /// The number that `holds` prints for an edge case, 0 if it is accepted.
    fn number_of(wanted: &str) -> u32 {
        match text_of(wanted).strip_prefix("refused ") {
            Some(number) => number.trim_end().parse().unwrap(),
            None => 0,
        }
    }

    #[test]
    fn sides_at_the_edges() {
        for width in [0, 1, 40, 41] {
            for height in [0, 1, 40, 41] {
                let outside = [0, 41].contains(&width) || [0, 41].contains(&height);
                let expected = if outside { 3 } else { 0 };
                assert_eq!(number_of(&format!("sides {} {}", width, height)), expected);
            }
        }
    }

    #[test]
    fn other_edges() {
        for (name, number) in [
            ("largest 0", 4),
            ("largest 1", 0),
            ("largest 255", 0),
            ("largest 256", 4),
            ("pixels 5", 5),
            ("pixels 6", 0),
            ("pixels 7", 5),
            ("empty", 1),
            ("bytes 4096", 0),
            ("bytes 4097", 12),
        ] {
            assert_eq!(number_of(name), number, "{}", name);
        }
    }

    #[test]
    fn edges_of_comments() {
        for (name, number) in [
            ("comment first", 0),
            ("comment second", 0),
            ("comment third", 0),
            ("comment after P5", 2),
            ("comment in largest", 2),
            ("comment after largest", 2),
            ("comment after header", 5),
            ("comment without end", 2),
            ("comment byte 12", 2),
            ("comment byte 32", 2),
            ("comment 4096", 0),
            ("comment 4097", 12),
        ] {
            assert_eq!(number_of(name), number, "{}", name);
        }
        for name in ["first", "second", "third", "4096"] {
            assert_eq!(text_of(&format!("comment {}", name)), text_of("pixels 6"));
        }
        assert_eq!(file_of_comment(4096).len(), 4096);
    }

    #[test]
    fn edge_of_centres() {
        let (_, expected) = centres()[0];
        assert_eq!(text_of("centres at a half"), expected);
    }

    #[test]
    fn edges_of_arguments() {
        for (name, number) in [
            ("size 0", 13),
            ("size 1", 0),
            ("size 6", 0),
            ("size 7", 13),
            ("digits 5", 0),
            ("digits 6", 13),
            ("argument empty", 13),
            ("argument 6x", 13),
            ("arguments 6 6", 13),
            ("size 1600", 0),
            ("size 1601", 13),
            ("size 0 sides 41 41", 3),
            ("size 0 bytes 4097", 12),
        ] {
            assert_eq!(number_of(name), number, "{}", name);
        }
    }

    #[test]
    fn edges_of_handbooks() {
        let expected = "handbook 3\nrefused 14\n\
                        handbook 4\n1 0 2 0 3\n\
                        handbook 5\n1 1 2 1 3\n\
                        handbook 6\nrefused 14\n\
                        handbook 3 adjacency 5\nrefused 14\n\
                        handbook 5 adjacency 5\nrefused 7\n";
        assert!(text().ends_with(&format!("size 0 bytes 4097\nrefused 12\n{}", expected)));
        assert!(edge_cases()
            .iter()
            .all(|run| !run.name.starts_with("handbook")));
    }

    #[test]
    fn texts_of_sizes() {
        // A size of 1 changes nothing; with n the picture is flat.
        assert_eq!(text_of("size 1"), text_of("pixels 6"));
        assert_eq!(text_of("digits 5"), text_of("size 6"));
        let flat = "picture 3 2\npatches 1 line 0\n1 6 ";
        assert!(text_of("size 6").starts_with(flat));
        let flat = "picture 40 40\npatches 1 line 0\n1 1600 ";
        assert!(text_of("size 1600").starts_with(flat));
    }
}
