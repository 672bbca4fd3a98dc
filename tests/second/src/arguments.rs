//! The arguments that every call has: their refusal, and the picture that they
//! name. The handbook that a number names.

use crate::literal::{Adjacency, Handbook, Picture};

/// The refusal's number or 0 of sides, of a number of bytes and of lent memory.
/// The order is 3, 8, 9. `enough` says whether the lent memory is enough for n
/// pixels.
pub fn refusal_of_sizes(sides: (u32, u32), length: usize, enough: impl Fn(usize) -> bool) -> u32 {
    let (width, height) = sides;
    if !(1..=40).contains(&width) || !(1..=40).contains(&height) {
        return 3;
    }
    let count = (width * height) as usize;
    if length != count {
        return 8;
    }
    if !enough(count) {
        return 9;
    }
    0
}

/// The refusal's number or 0. The order is 7, 3, 8, 9, 10.
pub fn refusal(
    adjacency: u32,
    sides: (u32, u32),
    length: usize,
    enough: impl Fn(usize) -> bool,
    places: &[u32],
) -> u32 {
    if adjacency != 4 && adjacency != 8 {
        return 7;
    }
    let number = refusal_of_sizes(sides, length, enough);
    if number != 0 {
        return number;
    }
    // The number of pixels is n here.
    if places.iter().any(|place| *place as usize >= length) {
        return 10;
    }
    0
}

/// The picture of arguments that are not refused.
pub fn picture(adjacency: u32, sides: (u32, u32), pixels: &[u8]) -> Picture {
    Picture {
        width: sides.0 as usize,
        height: sides.1 as usize,
        pixels: pixels.to_vec(),
        adjacency: if adjacency == 4 {
            Adjacency::Four
        } else {
            Adjacency::Eight
        },
    }
}

/// The handbook of this number, nothing where the number is refused.
pub fn handbook(number: u32) -> Option<Handbook> {
    match number {
        4 => Some(Handbook::Four),
        5 => Some(Handbook::Five),
        _ => None,
    }
}
