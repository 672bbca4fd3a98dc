//! Storing the rows of a picture, and the way back.
//!
//! What was decided where the request leaves words open:
//!
//! - The even rows stand from the top down, and so do the odd ones behind them.
//! - Every row keeps its first pixel, not the first row only. With a width of 1
//!   there is no difference at all.
//! - The difference is the pixel less its left neighbour. The neighbour is the
//!   one of the picture, not what was stored for it.
//! - The way back takes any n bytes, since all of them are a stored form. Its 8
//!   is about their number.
//! - Both calls write n bytes, so 9 is tested against n.

use crate::arguments;

/// Rows 0, 2, 4 and so on, then the odd rows.
fn even_rows_first<Row: Clone>(rows: &[Row]) -> Vec<Row> {
    let even = rows.iter().step_by(2);
    let odd = rows.iter().skip(1).step_by(2);
    even.chain(odd).cloned().collect()
}

/// The way back: each row is looked for where the new order has put it.
fn rows_from_the_top<Row: Clone>(stored: &[Row]) -> Vec<Row> {
    let numbers: Vec<usize> = (0..stored.len()).collect();
    let order = even_rows_first(&numbers);
    let position = |row: usize| order.iter().position(|number| *number == row).unwrap();
    numbers
        .into_iter()
        .map(|row| stored[position(row)].clone())
        .collect()
}

/// The difference of a pixel from its left neighbour, modulo 256.
fn difference(pixel: u8, left: u8) -> u8 {
    (i32::from(pixel) - i32::from(left)).rem_euclid(256) as u8
}

/// A row with each pixel but the first replaced by its difference.
fn differences(row: &[u8]) -> Vec<u8> {
    let replaced = row.windows(2).map(|pair| difference(pair[1], pair[0]));
    row.iter().copied().take(1).chain(replaced).collect()
}

/// The way back: each pixel is searched for among all bytes, by its difference
/// from its left neighbour, which is found already.
fn row_of(differences: &[u8]) -> Vec<u8> {
    let mut row: Vec<u8> = Vec::new();
    for wanted in differences.iter().copied() {
        let pixel = match row.last().copied() {
            None => wanted,
            Some(left) => (0..=255)
                .find(|pixel| difference(*pixel, left) == wanted)
                .unwrap(),
        };
        row.push(pixel);
    }
    row
}

/// The rows of these bytes, each of this width.
fn rows_of(width: usize, bytes: &[u8]) -> Vec<Vec<u8>> {
    bytes.chunks(width).map(<[u8]>::to_vec).collect()
}

/// The stored form of a picture.
pub fn stored(width: usize, pixels: &[u8]) -> Vec<u8> {
    let ordered = even_rows_first(&rows_of(width, pixels));
    ordered.iter().flat_map(|row| differences(row)).collect()
}

/// The picture with this stored form; the last step is undone first.
pub fn restored(width: usize, stored: &[u8]) -> Vec<u8> {
    let ordered: Vec<Vec<u8>> = rows_of(width, stored)
        .iter()
        .map(|row| row_of(row))
        .collect();
    rows_from_the_top(&ordered).concat()
}

/// The two calls.
#[derive(Clone, Copy, Debug, PartialEq)]
pub enum Direction {
    Store,
    Restore,
}

pub const DIRECTIONS: [Direction; 2] = [Direction::Store, Direction::Restore];

/// The arguments of a call that stores rows or restores them.
#[derive(Clone, Debug)]
pub struct RowsCall {
    pub direction: Direction,
    pub sides: (u32, u32),
    /// The pixels, or the stored form.
    pub bytes: Vec<u8>,
    pub out_length: usize,
}

impl RowsCall {
    /// A call whose output is just long enough, if it is not refused.
    pub fn exact(direction: Direction, sides: (u32, u32), bytes: Vec<u8>) -> RowsCall {
        RowsCall {
            direction,
            sides,
            out_length: bytes.len(),
            bytes,
        }
    }

    /// The refusal's number or 0. The order is 3, 8, 9.
    pub fn refusal(&self) -> u32 {
        let enough = |count| self.out_length >= count;
        arguments::refusal_of_sizes(self.sides, self.bytes.len(), enough)
    }

    /// The bytes that the output of an unrefused call begins with.
    pub fn output(&self) -> Vec<u8> {
        let width = self.sides.0 as usize;
        match self.direction {
            Direction::Store => stored(width, &self.bytes),
            Direction::Restore => restored(width, &self.bytes),
        }
    }
}

#[cfg(test)]
mod tests {
    use super::*;
    use crate::generate;
    use crate::random::Random;
    use crate::worked;
    use std::collections::BTreeSet;

    /// Picture and stored form, worked by hand; both with their rows.
    const TABLE: [(&str, &str); 12] = [
        ("200", "200"),
        // Height 1: differences only. The last is a ramp of doubled values,
        // whose differences from what was stored would be others.
        ("0 1", "0 1"),
        ("1 0", "1 255"),
        ("3 1 4 0 2", "3 254 3 252 2"),
        ("1 2 4 8 16", "1 1 2 4 8"),
        // Height 2: the rows stay where they are.
        ("0 5 / 5 0", "0 5 / 5 251"),
        ("0 5 2 / 3 3 3", "0 5 253 / 3 0 0"),
        // Height 3: the last row is even. 0 and 255 wrap both ways.
        (
            "10 12 11 / 0 255 0 / 255 0 1",
            "10 2 255 / 255 1 1 / 0 255 1",
        ),
        ("128 0 / 0 128 / 127 255", "128 128 / 127 128 / 0 128"),
        // Width 1: the order only, for an odd and an even height.
        ("1 / 2 / 3 / 4 / 5", "1 / 3 / 5 / 2 / 4"),
        ("9 / 8 / 7 / 6", "9 / 7 / 8 / 6"),
        // Height 6: each row has a difference of its own.
        (
            "0 1 / 10 12 / 20 23 / 30 34 / 40 45 / 50 56",
            "0 1 / 20 3 / 40 5 / 10 2 / 30 4 / 50 6",
        ),
    ];

    #[test]
    fn worked_stored_forms() {
        for (picture, form) in TABLE {
            let (picture, form) = (worked::four(picture), worked::four(form));
            assert_eq!((picture.width, picture.height), (form.width, form.height));
            let sides = (picture.width as u32, picture.height as u32);
            let store = RowsCall::exact(Direction::Store, sides, picture.pixels.clone());
            assert_eq!(store.output(), form.pixels, "{:?}", store);
            let restore = RowsCall::exact(Direction::Restore, sides, form.pixels);
            assert_eq!(restore.output(), picture.pixels, "{:?}", restore);
            assert_eq!((store.refusal(), restore.refusal()), (0, 0));
        }
    }

    /// The order alone, on the numbers of the rows.
    #[test]
    fn no_row_is_lost_or_repeated() {
        assert_eq!(even_rows_first(&[0, 1, 2, 3, 4]), [0, 2, 4, 1, 3]);
        assert_eq!(even_rows_first(&[0, 1, 2, 3]), [0, 2, 1, 3]);
        for height in 1..=40 {
            let rows: Vec<usize> = (0..height).collect();
            let ordered = even_rows_first(&rows);
            let mut sorted = ordered.clone();
            sorted.sort();
            assert_eq!(sorted, rows);
            assert_eq!(rows_from_the_top(&ordered), rows);
            assert_eq!(even_rows_first(&rows_from_the_top(&rows)), rows);
        }
    }

    /// A row of one value and its number, for each height.
    #[test]
    fn every_row_of_a_picture_is_stored_once() {
        for height in 1..=40 {
            let pixels: Vec<u8> = (0..height).flat_map(|row| [row, row, row]).collect();
            let form = stored(3, &pixels);
            let first: Vec<u8> = form.iter().copied().step_by(3).collect();
            let even = (0..height).filter(|row| row % 2 == 0);
            let odd = (0..height).filter(|row| row % 2 == 1);
            assert_eq!(first, even.chain(odd).collect::<Vec<u8>>());
            assert!(form.chunks(3).all(|row| row[1..] == [0, 0]));
        }
    }

    /// Every sequence of this length over these bytes.
    fn sequences(bytes: &[u8], length: usize) -> Vec<Vec<u8>> {
        let mut sequences = vec![Vec::new()];
        for _ in 0..length {
            sequences = sequences
                .iter()
                .flat_map(|start| bytes.iter().map(|byte| [&start[..], &[*byte]].concat()))
                .collect();
        }
        sequences
    }

    /// The widths that divide a number of pixels.
    fn widths(count: usize) -> impl Iterator<Item = usize> {
        (1..=count).filter(move |width| count % width == 0)
    }

    /// Asserts that each sequence is the stored form of exactly one picture
    /// among these same sequences, and that the way back finds it.
    fn assert_one_picture_each(bytes: &[u8], length: usize) {
        let all = sequences(bytes, length);
        for width in widths(length) {
            let forms: Vec<Vec<u8>> = all.iter().map(|pixels| stored(width, pixels)).collect();
            let distinct: BTreeSet<&Vec<u8>> = forms.iter().collect();
            assert_eq!(distinct, all.iter().collect());
            for (pixels, form) in all.iter().zip(&forms) {
                assert_eq!(restored(width, form), *pixels);
            }
        }
    }

    /// All pictures of one and of two pixels.
    #[test]
    fn every_sequence_is_the_stored_form_of_one_picture() {
        let bytes: Vec<u8> = (0..=255).collect();
        assert_one_picture_each(&bytes, 1);
        assert_one_picture_each(&bytes, 2);
    }

    /// More pixels, over bytes among which all differences lie too: no other
    /// picture has such a stored form.
    #[test]
    fn every_sequence_of_closed_bytes_is_the_stored_form_of_one_picture() {
        for length in 1..=6 {
            assert_one_picture_each(&[0, 64, 128, 192], length);
        }
        for length in 7..=12 {
            assert_one_picture_each(&[0, 128], length);
        }
    }

    /// Both ways round, over bytes whose differences wrap.
    #[test]
    fn the_way_back_of_every_tiny_picture() {
        for length in 1..=5 {
            for bytes in sequences(&[0, 1, 127, 128, 254, 255], length) {
                for width in widths(length) {
                    assert_eq!(restored(width, &stored(width, &bytes)), bytes);
                    assert_eq!(stored(width, &restored(width, &bytes)), bytes);
                }
            }
        }
    }

    #[test]
    fn the_way_back_of_generated_pictures() {
        let mut random = Random::new(70_001);
        let mut kinds = BTreeSet::new();
        for _ in 0..500 {
            let picture = generate::any_picture(&mut random);
            let (width, pixels) = (picture.width, picture.pixels);
            assert_eq!(restored(width, &stored(width, &pixels)), pixels);
            assert_eq!(stored(width, &restored(width, &pixels)), pixels);
            kinds.insert(picture.kind);
        }
        assert_eq!(kinds.len(), generate::KIND_COUNT);
    }

    /// The refusal's number or 0 of a call on this many bytes.
    fn refusal(direction: Direction, sides: (u32, u32), length: usize, out_length: usize) -> u32 {
        let call = RowsCall {
            out_length,
            ..RowsCall::exact(direction, sides, vec![7; length])
        };
        call.refusal()
    }

    #[test]
    fn each_refusal_alone() {
        for direction in DIRECTIONS {
            for side in [0, 41, 256 + 1, 65_536 + 1, 1 << 31, u32::MAX] {
                assert_eq!(refusal(direction, (side, 1), 1, 9), 3);
                assert_eq!(refusal(direction, (1, side), 1, 9), 3);
                assert_eq!(refusal(direction, (side, side), 1, 9), 3);
            }
            for length in [0, 1, 5, 7, 12, 256 + 6] {
                assert_eq!(refusal(direction, (3, 2), length, 999), 8);
            }
            for (out_length, expected) in [(0, 9), (1, 9), (5, 9), (6, 0), (7, 0), (65_536, 0)] {
                assert_eq!(refusal(direction, (3, 2), 6, out_length), expected);
            }
            for (out_length, expected) in [(1599, 9), (1600, 0), (1601, 0)] {
                assert_eq!(refusal(direction, (40, 40), 1600, out_length), expected);
            }
        }
    }

    /// Each two of the causes 3, 8 and 9 at once, and all; the earlier one is
    /// answered.
    #[test]
    fn each_refusal_before_each_later_one() {
        for direction in DIRECTIONS {
            assert_eq!(refusal(direction, (41, 1), 40, 99), 3);
            assert_eq!(refusal(direction, (41, 1), 41, 40), 3);
            assert_eq!(refusal(direction, (0, 5), 0, 0), 3);
            assert_eq!(refusal(direction, (u32::MAX, u32::MAX), 3, 0), 3);
            assert_eq!(refusal(direction, (3, 2), 5, 5), 8);
            assert_eq!(refusal(direction, (3, 2), 7, 5), 8);
            assert_eq!(refusal(direction, (3, 2), 0, 0), 8);
        }
    }
}
