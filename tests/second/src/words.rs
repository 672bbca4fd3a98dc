//! Arguments for the program `holds`: least sizes, and words that are none.

use crate::random::Random;

/// Words that name no size of any picture.
const WRONG: [&[u8]; 51] = [
    // None, or 0.
    b"",
    b"0",
    b"00",
    b"00000",
    b"-0",
    b"+0",
    // Something beside the digits.
    b" ",
    b"6 ",
    b" 6",
    b"6\n",
    b"1\n",
    b"\n6",
    b"\t6",
    b"6\r",
    b"1 2",
    b"6 6",
    b"+6",
    b"-6",
    b"-",
    b"--",
    b"--help",
    b"6x",
    b"x6",
    b"x",
    b"0x6",
    b"6.",
    b"6.0",
    b"6,0",
    b"6e0",
    b"1_0",
    b"'6'",
    b"/",
    b":",
    b"6/",
    b"6:",
    b"/6",
    b":6",
    // Bytes above 127: superscripts and digits of other scripts among them.
    b"\xb2",
    b"\xb6",
    b"6\xff",
    b"\xff6",
    b"\xc2\xb2",
    b"\xd9\xa6",
    b"\xef\xbc\x96",
    // More than 5 bytes. The last two are 6 more than 2 to the power of 32 and of 64.
    b"000006",
    b"000000",
    b"100000",
    b"123456",
    b"00006x",
    b"4294967302",
    b"18446744073709551622",
];

/// Words of 5 digits at most that are above every picture's number of pixels.
/// Of some the low 8 or 16 bits are a size.
const TOO_LARGE: [&[u8]; 8] = [
    b"1601", b"01601", b"2000", b"10000", b"65536", b"65537", b"65542", b"99999",
];

/// Long words that name no size. The lengths of two are 1 in their low 8 and
/// 16 bits.
fn long() -> Vec<Vec<u8>> {
    let zeros = vec![b'0'; 299];
    vec![
        [&zeros[..], b"6"].concat(),
        [b"6", &zeros[..]].concat(),
        vec![b'x'; 300],
        [b"6", &[b'x'; 256][..]].concat(),
        [b"6", &[b'0'; 65_536][..]].concat(),
    ]
}

/// Two arguments or more.
fn several() -> Vec<Vec<Vec<u8>>> {
    let lists: [&[&[u8]]; 9] = [
        &[b"6", b"6"],
        &[b"1", b"2"],
        &[b"6", b""],
        &[b"", b"6"],
        &[b"", b""],
        &[b"6", b"x"],
        &[b"x", b"6"],
        &[b"6", b"6", b"6"],
        &[b"", b"6", b"0"],
    ];
    lists
        .iter()
        .map(|words| words.iter().map(|word| word.to_vec()).collect())
        // 1 in its low 8 bits.
        .chain([vec![b"6".to_vec(); 257]])
        .collect()
}

/// Arguments that are wrong for every picture.
pub fn wrong() -> Vec<Vec<Vec<u8>>> {
    let short = WRONG.iter().chain(&TOO_LARGE).map(|word| word.to_vec());
    let mut lists: Vec<Vec<Vec<u8>>> = short.chain(long()).map(|word| vec![word]).collect();
    lists.extend(several());
    lists
}

/// A size as a word, often with zeros before it, of 5 digits at most.
pub fn word_of(random: &mut Random, size: usize) -> Vec<u8> {
    let digits = random.one_of(&[1, 1, 1, 4, 5]);
    format!("{:0digits$}", size).into_bytes()
}

/// Sizes for a picture of so many pixels: those at the limits, and others.
/// The first and the last are refused, and so is 12 for a small picture.
pub fn sizes(random: &mut Random, count: usize) -> Vec<usize> {
    let small = random.between(1, count.min(40));
    let any = random.between(1, count);
    vec![0, 1, 2, 12, small, any, count - 1, count, count + 1]
}

#[cfg(test)]
mod tests {
    use super::*;
    use crate::holds;

    #[test]
    fn wrong_arguments_name_no_size() {
        for arguments in wrong() {
            if let [word] = arguments.as_slice() {
                assert_eq!(holds::least_size(word, 1600), None, "{:?}", word);
            }
        }
    }

    #[test]
    fn words_of_sizes() {
        let mut random = Random::new(7);
        for size in 1..=1600 {
            let word = word_of(&mut random, size);
            assert_eq!(holds::least_size(&word, 1600), Some(size));
        }
    }
}
