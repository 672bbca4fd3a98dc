//! Test cases for the C client, one a line.
//!
//! Fields are parted by one space; bytes are in hexadecimal, no bytes are
//! a hyphen. The fields in brackets stand there only if the number is 0.
//!
//!     read FILE OUT-LENGTH NUMBER [WIDTH HEIGHT LARGEST OFFSET]
//!     watershed ADJACENCY WIDTH HEIGHT PIXELS OUT-LENGTH WORK-LENGTH NUMBER [OUT]
//!     place ADJACENCY WIDTH HEIGHT PIXELS PLACE OUT-LENGTH WORK-LENGTH NUMBER [VALUE PATCH]

use crate::arguments;
use crate::comments;
use crate::damage;
use crate::file;
use crate::generate;
use crate::hexadecimal;
use crate::limits::{self, Change};
use crate::literal::Picture;
use crate::quick;
use crate::random::Random;

/// The arguments of a watershed call; a place query adds a place.
#[derive(Clone)]
struct Call {
    adjacency: u32,
    width: u32,
    height: u32,
    pixels: Vec<u8>,
    out_length: usize,
    work_length: usize,
    place: Option<u32>,
}

/// Output bytes of a place query, and of reading.
const PLACE_OUT: usize = 16;
const READ_OUT: usize = 32;

/// Output bytes that a call needs for a picture of so many pixels.
fn out_needed(with_place: bool, count: usize) -> usize {
    if with_place {
        PLACE_OUT
    } else {
        count
    }
}

impl Call {
    fn refusal(&self) -> u32 {
        arguments::refusal(
            self.adjacency,
            (self.width, self.height),
            self.pixels.len(),
            |count| {
                self.out_length >= out_needed(self.place.is_some(), count)
                    && self.work_length >= 10 * count
            },
            self.place.as_slice(),
        )
    }

    fn picture(&self) -> Picture {
        arguments::picture(self.adjacency, (self.width, self.height), &self.pixels)
    }

    /// The call's name and its fields up to the number.
    fn fields(&self) -> String {
        let sides = format!("{} {} {}", self.adjacency, self.width, self.height);
        let pixels = hexadecimal(&self.pixels);
        let lengths = format!("{} {}", self.out_length, self.work_length);
        match self.place {
            None => format!("watershed {} {} {}", sides, pixels, lengths),
            Some(place) => format!("place {} {} {} {}", sides, pixels, place, lengths),
        }
    }

    /// The fields behind the number 0.
    fn answer(&self) -> String {
        let picture = self.picture();
        match self.place {
            None => hexadecimal(&quick::watershed(&picture).pixels),
            Some(place) => {
                let answer = quick::place_query(&picture, place as usize);
                format!("{} {}", answer.value, answer.patch.unwrap_or(0))
            }
        }
    }

    fn line(&self) -> String {
        match self.refusal() {
            0 => format!("{} 0 {}", self.fields(), self.answer()),
            number => format!("{} {}", self.fields(), number),
        }
    }
}

fn read_line(file: &[u8], out_length: usize) -> String {
    let start = format!("read {} {}", hexadecimal(file), out_length);
    match file::read(file) {
        Err(refusal) => format!("{} {}", start, refusal.number),
        // In reading for C, 9 comes after 6.
        Ok(_) if out_length < READ_OUT => format!("{} 9", start),
        Ok(accepted) => format!(
            "{} 0 {} {} {} {}",
            start, accepted.width, accepted.height, accepted.largest, accepted.offset
        ),
    }
}

/// A call that is not refused, for a generated picture.
fn good_call(random: &mut Random, with_place: bool) -> Call {
    let picture = generate::any_picture(random);
    let count = picture.pixels.len();
    let spare = random.one_of(&[0, 0, 1, 7, 100]);
    Call {
        adjacency: random.one_of(&[4, 8]),
        width: picture.width as u32,
        height: picture.height as u32,
        pixels: picture.pixels,
        out_length: out_needed(with_place, count) + spare,
        work_length: 10 * count + random.one_of(&[0, 0, 1, 9, 10, 100]),
        place: with_place.then(|| random.below(count) as u32),
    }
}

/// H10 with no cause of refusal.
fn call_of_h10(place: Option<u32>) -> Call {
    Call {
        adjacency: 4,
        width: 3,
        height: 2,
        pixels: vec![0, 5, 2, 3, 3, 3],
        out_length: out_needed(place.is_some(), 6),
        work_length: 60,
        place,
    }
}

/// Pixels 0 and 255 by turns, with a width of 40 as on a checkerboard; the
/// memory is as long as needed.
fn call_of_turns(adjacency: u32, (width, height): (u32, u32), place: Option<u32>) -> Call {
    let count = (width * height) as usize;
    Call {
        adjacency,
        width,
        height,
        pixels: (0..count)
            .map(|place| ((place / 40 + place) % 2 * 255) as u8)
            .collect(),
        out_length: out_needed(place.is_some(), count),
        work_length: 10 * count,
        place,
    }
}

/// The numbers that an argument takes in turn, and how it takes one.
const LIMITS: [(&[u32], &[Change<Call>]); 5] = [
    (
        &[0, 1, 2, 3, 5, 6, 7, 8, 9, 12, 260, 264, 65_540, u32::MAX],
        &[|call, adjacency| call.adjacency = adjacency],
    ),
    (
        &limits::SIDES,
        &[
            |call, side| call.width = side,
            |call, side| call.height = side,
            |call, side| (call.width, call.height) = (side, side),
            |call, side| {
                (call.width, call.height) = (side, side);
                call.pixels.clear();
            },
        ],
    ),
    (
        &limits::LENGTHS,
        &[|call, length| call.pixels = vec![1; length as usize]],
    ),
    (
        &[0, 1, 5, 6, 7, 8, 15, 16, 17],
        &[|call, length| call.out_length = length as usize],
    ),
    (
        &[0, 1, 6, 12, 30, 58, 59, 60, 61],
        &[|call, length| call.work_length = length as usize],
    ),
];

/// Places at the limits of H10.
const PLACES: [u32; 11] = [0, 1, 2, 3, 4, 6, 7, 256, 65_536, 65_541, u32::MAX];

/// Places of patches whose numbers need more than one byte, on a
/// checkerboard of 40 by 40.
const PLACES_OF_LARGE_NUMBERS: [u32; 8] = [510, 512, 799, 1024, 1279, 1280, 1598, 1599];

/// H10 with one argument at a limit.
fn calls_of_h10_at_the_limits(place: Option<u32>) -> Vec<Call> {
    let good = call_of_h10(place);
    let mut calls = vec![good.clone()];
    for (numbers, changes) in LIMITS {
        calls.extend(limits::changed(&good, numbers, changes));
    }
    calls
}

/// Sides at the limits that are not refused.
fn calls_of_extreme_sides(with_place: bool) -> Vec<Call> {
    let mut calls = Vec::new();
    for sides in [(1, 1), (1, 40), (40, 1), (40, 40)] {
        let place = with_place.then_some(sides.0 * sides.1 - 1);
        calls.push(call_of_turns(4, sides, place));
        calls.push(call_of_turns(8, sides, place));
    }
    calls
}

/// Calls with one argument at a limit each.
fn calls_at_the_limits() -> Vec<Call> {
    let mut calls = calls_of_h10_at_the_limits(None);
    calls.extend(calls_of_extreme_sides(false));
    calls.extend(calls_of_h10_at_the_limits(Some(5)));
    calls.extend(PLACES.map(|place| call_of_h10(Some(place))));
    calls.extend(calls_of_extreme_sides(true));
    calls.extend(PLACES_OF_LARGE_NUMBERS.map(|place| call_of_turns(4, (40, 40), Some(place))));
    calls
}

/// A call with a set of the causes 7, 3, 8, 9 by the output, 9 by the work
/// memory, and 10.
fn call_for_the_order(set: u32, with_place: bool) -> Call {
    let has = |cause: usize| set >> cause & 1 == 1;
    let out_needed = out_needed(with_place, 6);
    Call {
        adjacency: if has(0) { 5 } else { 8 },
        width: if has(1) { 41 } else { 3 },
        height: 2,
        pixels: vec![4; if has(2) { 7 } else { 6 }],
        out_length: if has(3) { out_needed - 1 } else { out_needed },
        work_length: if has(4) { 59 } else { 60 },
        place: with_place.then_some(if has(5) { 6 } else { 5 }),
    }
}

/// Calls for the order of refusals: one for each set of causes. Without a
/// place there is no cause 10.
fn calls_for_the_order() -> Vec<Call> {
    let mut calls = Vec::new();
    for set in 0..64 {
        if set < 32 {
            calls.push(call_for_the_order(set, false));
        }
        calls.push(call_for_the_order(set, true));
    }
    calls
}

/// Breaks one of the arguments.
fn break_call(random: &mut Random, call: &mut Call) {
    match random.below(6) {
        0 => call.adjacency = limits::wrong_adjacency(random),
        1 => call.width = limits::wrong_side(random),
        2 => call.height = limits::wrong_side(random),
        3 => limits::break_length(random, &mut call.pixels),
        4 => {
            if random.below(2) == 0 {
                shorten(random, &mut call.out_length);
            } else {
                shorten(random, &mut call.work_length);
            }
        }
        _ => {
            if call.place.is_some() {
                call.place = Some(limits::wrong_place(random, call.pixels.len()));
            }
        }
    }
}

/// Makes a length smaller, if it is not 0.
fn shorten(random: &mut Random, length: &mut usize) {
    *length -= random.between(1, (*length).max(1)).min(*length);
}

const FILES: [&[u8]; 8] = [
    b"P5\n5 1\n9\n\x03\x01\x04\x00\x02",
    b"P5\n5 1\n9\n\x03\x01\x04\x00\x0a",
    b"P5\n5 1\n9\n\x03\x01\x04\x00",
    b"P5\n5 1\n0\n\x03",
    b"P5\n41 1\n0\n\x03",
    b"P5\n41 1\n0",
    b"P6\n41 1\n0",
    b"",
];

/// Reading with an output length at a limit, and reading of a long file.
fn reads_at_the_limits() -> Vec<String> {
    let mut lines = Vec::new();
    for out_length in [0, 1, 31, 32, 33, 64] {
        lines.extend(FILES.map(|file| read_line(file, out_length)));
    }
    // Reading itself has no limit of 4,096 bytes; the program has it.
    let long = [b"P5".to_vec(), vec![32; 4096], b"1 1\n255\n\xff".to_vec()];
    lines.push(read_line(&long.concat(), READ_OUT));
    lines
}

/// Reading of files with comments, with an output length at a limit, and of
/// some with a long comment.
fn reads_with_comments() -> Vec<String> {
    let mut lines = Vec::new();
    for out_length in [0, 31, 32, 33] {
        let files = comments::files();
        lines.extend(files.iter().map(|file| read_line(file, out_length)));
    }
    for end in ["\n", "\r", "\x0c", ""] {
        let start = [b"P5\n1 1\n".to_vec(), vec![b'#'; 4096]].concat();
        let long = [&start, end.as_bytes(), b"255\n\xff"].concat();
        lines.push(read_line(&long, READ_OUT));
    }
    lines
}

fn reads_for_the_order() -> Vec<String> {
    let mut lines = Vec::new();
    for file in damage::files_for_the_order() {
        lines.push(read_line(&file, READ_OUT));
        lines.push(read_line(&file, READ_OUT - 1));
    }
    lines
}

/// Reading of a generated file, fit or damaged.
fn generated_read(random: &mut Random) -> String {
    let file = if random.below(2) == 0 {
        let picture = generate::any_picture(random);
        damage::accepted_file(random, &picture)
    } else {
        damage::damaged_file(random)
    };
    let out_length = random.one_of(&[0, 8, 31, 32, 32, 32, 33, 100]);
    read_line(&file, out_length)
}

/// A call for a generated picture, often with broken arguments.
fn generated_call(random: &mut Random, with_place: bool) -> String {
    let mut call = good_call(random, with_place);
    for _ in 0..random.one_of(&[0, 0, 0, 1, 2, 3]) {
        break_call(random, &mut call);
    }
    call.line()
}

/// All cases, as lines; `count` of them are generated.
pub fn text(count: usize) -> String {
    let mut lines = reads_at_the_limits();
    lines.extend(reads_with_comments());
    lines.extend(reads_for_the_order());
    lines.extend(calls_for_the_order().iter().map(Call::line));
    lines.extend(calls_at_the_limits().iter().map(Call::line));
    let mut random = Random::new(30_001);
    lines.extend((0..count).map(|index| match index % 3 {
        0 => generated_read(&mut random),
        1 => generated_call(&mut random, false),
        _ => generated_call(&mut random, true),
    }));
    lines.join("\n") + "\n"
}

#[cfg(test)]
mod tests {
    use super::*;

    fn number_field(kind: &str) -> usize {
        match kind {
            "read" => 3,
            "watershed" => 7,
            _ => 8,
        }
    }

    #[test]
    fn every_number_occurs() {
        let expected: [(&str, &[u32]); 3] = [
            ("read", &[0, 1, 2, 3, 4, 5, 6, 9]),
            ("watershed", &[0, 7, 3, 8, 9]),
            ("place", &[0, 7, 3, 8, 9, 10]),
        ];
        limits::assert_numbers(&text(900), number_field, &expected, 5);
    }
}
