//! The text that the program `holds` prints.

use crate::centre;
use crate::file;
use crate::filling;
use crate::literal::{Adjacency, Picture};
use crate::quick;

/// A run of `holds`: a name, its arguments and its standard input.
#[derive(Clone)]
pub struct Run {
    pub name: String,
    pub arguments: Vec<Vec<u8>>,
    pub input: Vec<u8>,
}

impl Run {
    /// What `holds` prints.
    pub fn text(&self) -> String {
        text(&self.arguments, &self.input)
    }
}

/// What `holds` prints for these arguments and this input.
pub fn text(arguments: &[Vec<u8>], input: &[u8]) -> String {
    match picture(arguments, input) {
        Ok(picture) => list(&picture),
        Err(number) => format!("refused {}\n", number),
    }
}

/// The picture whose watershed is listed, or the refusal's number. The order
/// is 12, 1 to 6, 13.
fn picture(arguments: &[Vec<u8>], input: &[u8]) -> Result<Picture, u32> {
    let accepted = file::read_input(input).map_err(|refusal| refusal.number)?;
    let given = Picture {
        width: accepted.width,
        height: accepted.height,
        pixels: input[accepted.offset..].to_vec(),
        adjacency: Adjacency::Four,
    };
    match arguments {
        [] => Ok(given),
        [word] => match least_size(word, given.count()) {
            Some(size) => Ok(filling::fill(&given, size)),
            None => Err(13),
        },
        _ => Err(13),
    }
}

/// The least size that a word names, for a picture of so many pixels:
/// nothing if it is not 1 to 5 digits, or is 0 or above the count.
pub fn least_size(word: &[u8], count: usize) -> Option<usize> {
    file::number(word).filter(|size| (1..=count).contains(size))
}

/// The hold list of the watershed of a picture.
fn list(picture: &Picture) -> String {
    let patches = quick::patches(&quick::watershed(picture));
    let patch_pixels: usize = patches.iter().map(|patch| patch.size).sum();

    let mut text = format!("picture {} {}\n", picture.width, picture.height);
    text += &format!(
        "patches {} line {}\n",
        patches.len(),
        picture.count() - patch_pixels
    );
    for patch in &patches {
        text += &format!(
            "{} {} {} {} {} {}\n",
            patch.number,
            patch.size,
            patch.height,
            patch.depth,
            centre::tenths(patch.column_sum, patch.size),
            centre::tenths(patch.row_sum, patch.size)
        );
    }
    text
}

#[cfg(test)]
mod tests {
    use super::*;

    const H3: &[u8] = b"P5\n5 1\n9\n\x03\x01\x04\x00\x02";

    fn text_with(words: &[&[u8]], input: &[u8]) -> String {
        let arguments: Vec<Vec<u8>> = words.iter().map(|word| word.to_vec()).collect();
        text(&arguments, input)
    }

    #[test]
    fn without_an_argument_and_with_1() {
        let expected = "picture 5 1\npatches 2 line 1\n1 2 1 3 5 0\n2 2 0 4 35 0\n";
        assert_eq!(text_with(&[], H3), expected);
        for word in ["1", "01", "00001"] {
            assert_eq!(text_with(&[word.as_bytes()], H3), expected);
        }
    }

    /// Filled with 2 the picture is 3 3 4 2 2, and its watershed the same;
    /// filled with 3 it is flat.
    #[test]
    fn filled_h3() {
        let expected = "picture 5 1\npatches 2 line 1\n1 2 3 1 5 0\n2 2 2 2 35 0\n";
        assert_eq!(text_with(&[b"2"], H3), expected);
        let expected = "picture 5 1\npatches 1 line 0\n1 5 4 0 20 0\n";
        for word in ["3", "4", "00005"] {
            assert_eq!(text_with(&[word.as_bytes()], H3), expected);
        }
    }

    #[test]
    fn wrong_arguments() {
        let words: [&[u8]; 14] = [
            b"", b"0", b"00000", b"6", b"000001", b"65537", b"+1", b"-1", b" 1", b"1 ", b"1\n",
            b"1x", b"\xb1", b"x",
        ];
        for word in words {
            assert_eq!(text_with(&[word], H3), "refused 13\n", "{:?}", word);
        }
        assert_eq!(text_with(&[b"1", b"1"], H3), "refused 13\n");
        assert_eq!(text_with(&[b"1", b""], H3), "refused 13\n");
        assert_eq!(text_with(&[b"1", b"1", b"1"], H3), "refused 13\n");
    }

    #[test]
    fn a_refused_file_comes_before_the_arguments() {
        let file = b"P5\n2 1\n9\n\x09\x0a";
        for words in [&[b"0".as_slice()][..], &[b""], &[b"1", b"1"]] {
            assert_eq!(text_with(words, file), "refused 6\n");
            assert_eq!(text_with(words, b""), "refused 1\n");
            assert_eq!(text_with(words, &[0; 4097]), "refused 12\n");
        }
    }
}
