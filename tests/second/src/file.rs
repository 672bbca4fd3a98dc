//! Reading a P5 file.

/// A refusal: its number, and for 2 the offset of the first unfit byte
/// (or the file's length), for 6 the first place of a pixel too large.
#[derive(Clone, Debug, PartialEq)]
pub struct Refusal {
    pub number: u32,
    pub detail: Option<usize>,
}

/// What an accepted file answers. Its pixels are the bytes from `offset`
/// to the end of the file.
#[derive(Clone, Debug, PartialEq)]
pub struct Accepted {
    pub width: usize,
    pub height: usize,
    pub largest: usize,
    pub offset: usize,
}

/// The longest input that the programs `holds` and `resave` take.
pub const INPUT_LIMIT: usize = 4096;

pub fn refuse(number: u32) -> Refusal {
    Refusal {
        number,
        detail: None,
    }
}

pub fn refuse_at(number: u32, detail: usize) -> Refusal {
    Refusal {
        number,
        detail: Some(detail),
    }
}

fn is_white_space(byte: u8) -> bool {
    byte == 9 || byte == 10 || byte == 13 || byte == 32
}

fn is_digit(byte: u8) -> bool {
    (48..=57).contains(&byte)
}

/// The position behind one white space byte at `start`.
fn walk_white_space(file: &[u8], start: usize) -> Result<usize, Refusal> {
    match file.get(start) {
        Some(byte) if is_white_space(*byte) => Ok(start + 1),
        _ => Err(refuse_at(2, start)),
    }
}

/// The position behind the comment at `start`: it goes up to the next byte
/// 10 or 13, which it includes.
fn walk_comment(file: &[u8], start: usize) -> Result<usize, Refusal> {
    let mut bytes = file[start..].iter();
    match bytes.position(|byte| *byte == 10 || *byte == 13) {
        Some(count) => Ok(start + count + 1),
        None => Err(refuse_at(2, file.len())),
    }
}

/// The position behind the gap at `start`: a white space byte, then white
/// space and comments in any order.
fn walk_gap(file: &[u8], start: usize) -> Result<usize, Refusal> {
    let mut position = walk_white_space(file, start)?;
    while position < file.len() {
        position = match file[position] {
            b'#' => walk_comment(file, position)?,
            byte if is_white_space(byte) => position + 1,
            _ => break,
        };
    }
    Ok(position)
}

/// Walks 1 to 5 digits. Answers the number and the position behind its last
/// digit.
fn walk_digits(file: &[u8], start: usize) -> Result<(usize, usize), Refusal> {
    let mut value = 0;
    let mut position = start;
    while position < file.len() && is_digit(file[position]) {
        if position == start + 5 {
            return Err(refuse_at(2, position));
        }
        value = 10 * value + usize::from(file[position] - 48);
        position += 1;
    }
    if position == start {
        return Err(refuse_at(2, position));
    }
    Ok((value, position))
}

/// Walks a gap and then a number, as `walk_digits`.
fn walk_number(file: &[u8], start: usize) -> Result<(usize, usize), Refusal> {
    walk_digits(file, walk_gap(file, start)?)
}

/// The number that these bytes are, if they are 1 to 5 digits and no more.
pub fn number(bytes: &[u8]) -> Option<usize> {
    match walk_digits(bytes, 0) {
        Ok((value, position)) if position == bytes.len() => Some(value),
        _ => None,
    }
}

/// Reads a P5 file: the answer, or one of the refusals 1 to 6.
pub fn read(file: &[u8]) -> Result<Accepted, Refusal> {
    if file.len() < 2 || file[0] != 80 || file[1] != 53 {
        return Err(refuse(1));
    }
    let (width, position) = walk_number(file, 2)?;
    let (height, position) = walk_number(file, position)?;
    let (largest, position) = walk_number(file, position)?;
    let offset = walk_white_space(file, position)?;

    // Ranges, only after the whole header.
    if !(1..=40).contains(&width) || !(1..=40).contains(&height) {
        return Err(refuse(3));
    }
    if !(1..=255).contains(&largest) {
        return Err(refuse(4));
    }
    let pixels = &file[offset..];
    if pixels.len() != width * height {
        return Err(refuse(5));
    }
    for (place, pixel) in pixels.iter().enumerate() {
        if usize::from(*pixel) > largest {
            return Err(refuse_at(6, place));
        }
    }
    Ok(Accepted {
        width,
        height,
        largest,
        offset,
    })
}

/// Reads the input of these programs: refusal 12 first, then 1 to 6.
pub fn read_input(input: &[u8]) -> Result<Accepted, Refusal> {
    if input.len() > INPUT_LIMIT {
        return Err(refuse(12));
    }
    read(input)
}

#[cfg(test)]
mod tests {
    use super::*;
    use crate::comments;

    fn number_and_detail(file: &[u8]) -> (u32, Option<usize>) {
        match read(file) {
            Ok(_) => (0, None),
            Err(refusal) => (refusal.number, refusal.detail),
        }
    }

    #[test]
    fn accepted() {
        let file = b"P5\t\r\n 00002 001\n9 \x09\x00";
        let accepted = Accepted {
            width: 2,
            height: 1,
            largest: 9,
            offset: 18,
        };
        assert_eq!(read(file), Ok(accepted));
    }

    #[test]
    fn numbers() {
        let fit: [(&[u8], usize); 4] = [(b"0", 0), (b"7", 7), (b"00012", 12), (b"99999", 99_999)];
        for (bytes, value) in fit {
            assert_eq!(number(bytes), Some(value));
        }
        let unfit: [&[u8]; 9] = [
            b"", b"000012", b"100000", b"/", b":", b"1 ", b" 1", b"-1", b"\xb2",
        ];
        for bytes in unfit {
            assert_eq!(number(bytes), None, "{:?}", bytes);
        }
    }

    #[test]
    fn does_not_begin_with_p5() {
        assert_eq!(number_and_detail(b""), (1, None));
        assert_eq!(number_and_detail(b"P"), (1, None));
        assert_eq!(number_and_detail(b"P6\n1 1\n9\n\x00"), (1, None));
        assert_eq!(number_and_detail(b"p5\n1 1\n9\n\x00"), (1, None));
        assert_eq!(number_and_detail(b" P5\n1 1\n9\n\x00"), (1, None));
    }

    /// Files whose header is not well-formed, and the offset of the first
    /// unfit byte.
    const UNFIT_HEADERS: [(&[u8], usize); 11] = [
        // White space is missing.
        (b"P51 1\n9\n\x00", 2),
        (b"P5\n1,1\n9\n\x00", 4),
        (b"P5\n1 1\n9#\x00", 8),
        // Byte 11 and byte 12 are not white space.
        (b"P5\x0b1 1\n9\n\x00", 2),
        (b"P5\n1\x0c1\n9\n\x00", 4),
        // The number is missing.
        (b"P5\n-1 1\n9\n\x00", 3),
        (b"P5\n1 /\n9\n\x00", 5),
        (b"P5\n1 :\n9\n\x00", 5),
        // The sixth digit is unfit.
        (b"P5\n000001 1\n9\n\x00", 8),
        (b"P5\n1 1\n000009\n\x00", 12),
        // The header comes before the ranges.
        (b"P5\n0 41\n0", 9),
    ];

    #[test]
    fn header_not_well_formed() {
        for (file, offset) in UNFIT_HEADERS {
            assert_eq!(number_and_detail(file), (2, Some(offset)), "{:?}", file);
        }
    }

    /// Every truncation of a header is 2 at its length.
    fn assert_ends_too_soon(whole: &[u8]) {
        for length in 2..whole.len() {
            assert_eq!(number_and_detail(&whole[..length]), (2, Some(length)));
        }
        assert_eq!(number_and_detail(whole), (5, None));
    }

    #[test]
    fn header_that_ends_too_soon() {
        assert_ends_too_soon(b"P5\n12 34\n255\n");
    }

    #[test]
    fn header_with_comments_that_ends_too_soon() {
        assert_ends_too_soon(b"P5\n#\n# 9 9\r12 #1#\n \t34\r#\x0b\x0c\x00\xff\r\n#255 \n255 ");
        for (file, [_, _, _, offset]) in comments::ACCEPTED {
            assert_ends_too_soon(&file[..offset]);
        }
    }

    #[test]
    fn accepted_with_comments() {
        for (file, [width, height, largest, offset]) in comments::ACCEPTED {
            let accepted = Accepted {
                width,
                height,
                largest,
                offset,
            };
            assert_eq!(read(file), Ok(accepted), "{:?}", file);
        }
    }

    #[test]
    fn refused_with_comments() {
        for (file, number, detail) in comments::REFUSED {
            assert_eq!(number_and_detail(file), (number, detail), "{:?}", file);
        }
    }

    /// Whether these bytes, or some continuation of them, begin with a header.
    fn can_go_on(bytes: &[u8]) -> bool {
        let missing = ["", "1 ", "1 1 ", "1 1 1 "];
        missing.iter().any(|rest| {
            let next = [bytes, rest.as_bytes()].concat();
            let next_line = [bytes, b"\n", rest.as_bytes()].concat();
            number_and_detail(&next).0 != 2 || number_and_detail(&next_line).0 != 2
        })
    }

    /// Some starts of headers, each with every four bytes of these.
    fn four_bytes_more() -> Vec<Vec<u8>> {
        let starts = [
            "P5",
            "P5 1",
            "P5 1 1",
            "P5 1 1 1",
            "P5 #",
            "P5 1 #",
            "P5 1 1 #",
            "P5 #\r1111",
        ];
        let bytes = b"\n\r #12\x0c";
        let mut files: Vec<Vec<u8>> = starts.map(|start| start.as_bytes().to_vec()).to_vec();
        for _ in 0..4 {
            files = files
                .iter()
                .flat_map(|file| bytes.map(|byte| [&file[..], &[byte]].concat()))
                .collect();
        }
        files
    }

    #[test]
    fn offset_is_the_first_unfit_byte() {
        for file in four_bytes_more() {
            let unfit = (2..file.len()).find(|place| !can_go_on(&file[..=*place]));
            match number_and_detail(&file) {
                (2, offset) => assert_eq!(offset, unfit.or(Some(file.len())), "{:?}", file),
                _ => assert_eq!(unfit, None, "{:?}", file),
            }
        }
    }

    /// Files with a whole header, their number and its detail.
    const WHOLE_HEADERS: [(&[u8], u32, Option<usize>); 10] = [
        (b"P5\n0 1\n0\n", 3, None),
        (b"P5\n1 41\n9\n", 3, None),
        (b"P5\n99999 99999\n9\n", 3, None),
        (b"P5\n1 1\n0\n", 4, None),
        (b"P5\n1 1\n256\n", 4, None),
        (b"P5\n2 1\n9\n\xff", 5, None),
        (b"P5\n2 1\n9\n\xff\xff\xff", 5, None),
        (b"P5\n2 1\n9\n\x09\x0a", 6, Some(1)),
        (b"P5\n2 1\n9\n\xff\xff", 6, Some(0)),
        (b"P5\n2 1\n9\n\x09\x09", 0, None),
    ];

    #[test]
    fn ranges_in_order() {
        for (file, number, detail) in WHOLE_HEADERS {
            assert_eq!(number_and_detail(file), (number, detail), "{:?}", file);
        }
    }

    #[test]
    fn input_over_the_limit() {
        let mut input = b"no".to_vec();
        input.resize(4096, 0);
        assert_eq!(read_input(&input), Err(refuse(1)));
        input.push(0);
        assert_eq!(read_input(&input), Err(refuse(12)));
    }
}
