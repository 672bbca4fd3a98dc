//! Calls that save pictures, as test cases in the form that the module `calls`
//! gives.

use crate::generate;
use crate::hexadecimal;
use crate::limits::{self, Cause, Change};
use crate::random::Random;
use crate::saving::{Save, LONGEST};
use crate::worked;

/// The case of a call.
fn line(call: &Save) -> String {
    let start = format!(
        "save {} {} {} {} {}",
        call.sides.0,
        call.sides.1,
        call.largest,
        hexadecimal(&call.pixels),
        call.out_length
    );
    match call.file() {
        Ok(file) => format!("{} 0 {} 0 {}", start, file.len(), hexadecimal(&file)),
        Err(refusal) => {
            let place = refusal.detail.unwrap_or(0);
            format!("{} {} 0 {}", start, refusal.number, place)
        }
    }
}

/// Pixels of many values, none above the largest sample.
fn mixed_pixels(count: u32, largest: u32) -> Vec<u8> {
    (0..count)
        .map(|place| ((place * 7 + 3) % (largest + 1)) as u8)
        .collect()
}

/// A call with these sides and such pixels.
fn mixed(sides: (u32, u32), largest: u32) -> Save {
    Save::exact(sides, largest, mixed_pixels(sides.0 * sides.1, largest))
}

/// The call with no output, with output for a part of the header, for the
/// header alone, for all but one byte, for the file, and longer.
fn with_each_length(exact: &Save) -> Vec<Save> {
    let count = exact.out_length;
    let header = count - exact.pixels.len();
    let lengths = [
        0,
        1,
        header,
        count - 1,
        count,
        count + 1,
        count + 256,
        16_384,
    ];
    lengths
        .map(|out_length| Save {
            out_length,
            ..exact.clone()
        })
        .to_vec()
}

/// The pictures worked by hand with several largest samples, some of them
/// below a pixel.
fn calls_of_worked_pictures() -> Vec<Save> {
    let mut calls = Vec::new();
    let pictures = worked::table().into_iter();
    for picture in pictures.flat_map(|(_, given, lowered)| [given, lowered]) {
        let sides = (picture.width as u32, picture.height as u32);
        for largest in [1, 4, 9, 10, 255] {
            let exact = Save::exact(sides, largest, picture.pixels.clone());
            calls.extend(with_each_length(&exact));
        }
    }
    calls
}

/// Every number of digits of width, height and largest sample together, at
/// the first and the last number of each; a side has no three digits.
fn calls_of_digits() -> Vec<Save> {
    let mut calls = Vec::new();
    for width in [1, 9, 10, 40] {
        for height in [1, 9, 10, 40] {
            for largest in [1, 9, 10, 99, 100, 255] {
                calls.extend(with_each_length(&mixed((width, height), largest)));
            }
        }
    }
    calls
}

/// Every side and every largest sample. The last pixel is the largest sample,
/// then one above it.
fn calls_of_every_number() -> Vec<Save> {
    let mut calls = Vec::new();
    for side in 1..=40 {
        calls.extend([mixed((side, 3), 200), mixed((3, side), 200)]);
        calls.extend([mixed((side, 10), 20), mixed((10, side), 20)]);
    }
    for largest in 1..=255 {
        let mut call = mixed((4, 3), largest);
        call.pixels[11] = largest as u8;
        calls.push(call.clone());
        if largest < 255 {
            call.pixels[11] = largest as u8 + 1;
            calls.push(call);
        }
    }
    // Every byte is a pixel, also those that a header is made of.
    let bytes: Vec<u8> = (0..=255).collect();
    calls.push(Save::exact((16, 16), 255, bytes));
    calls
}

/// Each place and each two places above the largest sample, by 1 and by more.
fn calls_of_first_places() -> Vec<Save> {
    let good = mixed((3, 2), 9);
    let mut calls = Vec::new();
    for one in 0..6 {
        for other in 0..6 {
            let mut call = good.clone();
            call.pixels[one] = 10;
            call.pixels[other] = 255;
            calls.push(call);
        }
    }
    let good = mixed((40, 40), 99);
    for place in [0, 1, 39, 40, 255, 256, 257, 799, 1279, 1280, 1598, 1599] {
        let mut call = good.clone();
        call.pixels[place] = 100;
        calls.push(call.clone());
        call.pixels[place..].fill(200);
        call.out_length = 0;
        calls.push(call);
    }
    calls
}

/// A fit call for the order of refusals and for the limits: H10 with 9, whose
/// file has 15 bytes.
fn call_of_h10() -> Save {
    Save::exact((3, 2), 9, vec![0, 5, 2, 3, 3, 3])
}

/// How a cause of a refusal is given to that call; each has several ways.
const CAUSES: [Cause<Save>; 6] = [
    [
        |call| call.sides.0 = 0,
        |call| call.sides.0 = 41,
        |call| call.sides.0 = u32::MAX,
    ],
    [
        |call| call.sides.1 = 0,
        |call| call.sides.1 = 41,
        |call| call.sides.1 = 65_538,
    ],
    [
        |call| call.largest = 0,
        |call| call.largest = 256,
        |call| call.largest = 65_545,
    ],
    [
        |call| call.pixels.truncate(5),
        |call| call.pixels.push(3),
        |call| call.pixels.clear(),
    ],
    // Behind those of the length: a pixel may be gone, or one be too many.
    [
        |call| call.pixels.iter_mut().for_each(|pixel| *pixel = 10),
        |call| {
            call.pixels
                .iter_mut()
                .skip(4)
                .for_each(|pixel| *pixel = 255)
        },
        |call| call.pixels.iter_mut().skip(5).for_each(|pixel| *pixel = 10),
    ],
    [
        |call| call.out_length = 14,
        |call| call.out_length = 0,
        |call| call.out_length = 9,
    ],
];

/// Largest samples at the limits, and some whose low 8 or 16 bits are not
/// refused.
const LARGEST: [u32; 17] = [
    0,
    1,
    4,
    5,
    6,
    9,
    10,
    99,
    100,
    254,
    255,
    256,
    265,
    65_536,
    65_545,
    1 << 31,
    u32::MAX,
];

/// The numbers that an argument takes in turn, and how it takes one.
const LIMITS: [(&[u32], &[Change<Save>]); 4] = [
    (
        &limits::SIDES,
        &[
            |call, side| call.sides.0 = side,
            |call, side| call.sides.1 = side,
            |call, side| call.sides = (side, side),
            |call, side| {
                call.sides = (side, side);
                call.pixels.clear();
            },
        ],
    ),
    (
        &LARGEST,
        &[
            |call, largest| call.largest = largest,
            |call, largest| {
                call.largest = largest;
                call.pixels.fill(0);
            },
            |call, largest| {
                call.largest = largest;
                call.pixels.fill(255);
            },
        ],
    ),
    (
        &[0, 1, 2, 3, 5, 6, 7, 12, 15, 262],
        &[|call, length| call.pixels.resize(length as usize, 1)],
    ),
    (
        &[0, 1, 2, 6, 8, 9, 10, 14, 15, 16, 30, 255, 256, 1613, 16_384],
        &[|call, length| call.out_length = length as usize],
    ),
];

/// Calls with one argument at a limit each, their output long enough and as
/// long as H10 needs.
fn calls_at_the_limits() -> Vec<Save> {
    let good = call_of_h10();
    let long = Save {
        out_length: LONGEST,
        ..good.clone()
    };
    let mut calls = Vec::new();
    for (numbers, changes) in LIMITS {
        calls.extend(limits::changed(&good, numbers, changes));
        calls.extend(limits::changed(&long, numbers, changes));
    }
    calls
}

/// Sides outside the limits, with output for any picture.
fn calls_of_wrong_sides() -> Vec<Save> {
    limits::WRONG_SIDES
        .map(|(width, height, count)| Save {
            sides: (width, height),
            largest: 9,
            pixels: mixed_pixels(count, 9),
            out_length: 2000,
        })
        .to_vec()
}

/// Breaks one of the arguments.
fn break_call(random: &mut Random, call: &mut Save) {
    let count = call.pixels.len();
    match random.below(6) {
        0 => call.sides.0 = limits::wrong_side(random),
        1 => call.sides.1 = limits::wrong_side(random),
        2 => call.largest = random.one_of(&[0, 256, 257, 65_536 + call.largest % 256, u32::MAX]),
        3 => limits::break_length(random, &mut call.pixels),
        // Most often below some pixel.
        4 => call.largest = call.largest.min(random.between(1, 200) as u32),
        _ => call.out_length = random.below(count + 13),
    }
}

/// A call for a generated picture, often with broken arguments.
fn generated_call(random: &mut Random) -> Save {
    let picture = generate::any_picture(random);
    let sides = (picture.width as u32, picture.height as u32);
    let mut call = Save::exact(sides, picture.largest as u32, picture.pixels);
    call.out_length += random.one_of(&[0, 0, 1, 7, 100]);
    for _ in 0..random.one_of(&[0, 0, 0, 1, 2, 3]) {
        break_call(random, &mut call);
    }
    call
}

/// All cases, as lines; `count` of them are of generated pictures.
pub fn lines(count: usize) -> Vec<String> {
    let mut calls = calls_of_worked_pictures();
    calls.extend(calls_of_digits());
    calls.extend(calls_of_every_number());
    calls.extend(calls_of_first_places());
    calls.extend(limits::calls_for_the_order(&call_of_h10(), &CAUSES));
    calls.extend(calls_at_the_limits());
    calls.extend(calls_of_wrong_sides());
    let mut random = Random::new(60_003);
    calls.extend((0..count).map(|_| generated_call(&mut random)));
    calls.iter().map(line).collect()
}

#[cfg(test)]
mod tests {
    use super::*;
    use std::collections::BTreeSet;

    #[test]
    fn worked_lines() {
        let mut call = Save::exact((5, 1), 9, vec![3, 1, 4, 0, 2]);
        let file = "50350a3520310a390a0301040002";
        let expected = format!("save 5 1 9 0301040002 14 0 14 0 {}", file);
        assert_eq!(line(&call), expected);
        call.out_length = 13;
        assert_eq!(line(&call), "save 5 1 9 0301040002 13 9 0 0");
        call.largest = 3;
        assert_eq!(line(&call), "save 5 1 3 0301040002 13 6 0 2");
        call.pixels.clear();
        assert_eq!(line(&call), "save 5 1 3 - 13 8 0 0");
    }

    #[test]
    fn sets_of_causes() {
        let calls = limits::calls_for_the_order(&call_of_h10(), &CAUSES);
        let numbers: Vec<u32> = calls
            .iter()
            .map(|call| call.file().map_or_else(|refusal| refusal.number, |_| 0))
            .collect();
        limits::assert_first_causes(&[3, 3, 4, 8, 6, 9], &numbers);
    }

    /// Digits of width, height and largest sample of the accepted calls.
    #[test]
    fn every_number_of_digits_occurs() {
        let digits = |number: u32| number.to_string().len();
        let accepted: BTreeSet<[usize; 3]> = calls_of_digits()
            .iter()
            .filter(|call| call.file().is_ok())
            .map(|call| [call.sides.0, call.sides.1, call.largest].map(digits))
            .collect();
        assert_eq!(accepted.len(), 2 * 2 * 3);
    }
}
