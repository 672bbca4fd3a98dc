//! Saving a picture as a P5 file with the shortest header.
//!
//! What was decided where the request leaves words open:
//!
//! - The largest sample of the file is the one that is given, not the largest
//!   pixel: reading must yield the same picture again.
//! - The count is that of the whole file, the header included.
//! - 9 is tested against this count, not against the longest file's. It comes
//!   last, so that the sides and the number of pixels are fit by then.
//! - 6 answers the first place, as in reading. Its pixels are n in number, since
//!   8 comes before.
//! - A refusal writes nothing, also where a part of the file would fit.

use crate::file::{refuse, refuse_at, Refusal};

/// The length of the longest file: that of 40 by 40 with a largest sample of
/// three digits.
pub const LONGEST: usize = 1613;

/// The file of a picture.
pub fn file_of(sides: (u32, u32), largest: u32, pixels: &[u8]) -> Vec<u8> {
    let mut file = format!("P5\n{} {}\n{}\n", sides.0, sides.1, largest).into_bytes();
    file.extend(pixels);
    file
}

/// The arguments of a call that saves a picture.
#[derive(Clone, Debug)]
pub struct Save {
    pub sides: (u32, u32),
    pub largest: u32,
    pub pixels: Vec<u8>,
    pub out_length: usize,
}

impl Save {
    /// A call whose output is just long enough, if it is not refused.
    pub fn exact(sides: (u32, u32), largest: u32, pixels: Vec<u8>) -> Save {
        Save {
            sides,
            largest,
            out_length: file_of(sides, largest, &pixels).len(),
            pixels,
        }
    }

    /// The file that the output begins with after success, or the refusal.
    /// The order is 3, 4, 8, 6, 9.
    pub fn file(&self) -> Result<Vec<u8>, Refusal> {
        let (width, height) = self.sides;
        if !(1..=40).contains(&width) || !(1..=40).contains(&height) {
            return Err(refuse(3));
        }
        if !(1..=255).contains(&self.largest) {
            return Err(refuse(4));
        }
        if self.pixels.len() != (width * height) as usize {
            return Err(refuse(8));
        }
        let mut pixels = self.pixels.iter();
        if let Some(place) = pixels.position(|pixel| u32::from(*pixel) > self.largest) {
            return Err(refuse_at(6, place));
        }
        let file = file_of(self.sides, self.largest, &self.pixels);
        if self.out_length < file.len() {
            return Err(refuse(9));
        }
        Ok(file)
    }
}

#[cfg(test)]
mod tests {
    use super::*;
    use crate::damage;
    use crate::file::{self, Accepted};
    use crate::generate::{self, Generated};
    use crate::random::Random;
    use std::collections::BTreeSet;

    fn save(sides: (u32, u32), largest: u32, pixels: &[u8], out_length: usize) -> Save {
        Save {
            sides,
            largest,
            pixels: pixels.to_vec(),
            out_length,
        }
    }

    /// The number and the place of a refused call.
    fn refusal(call: &Save) -> (u32, Option<usize>) {
        let refusal = call.file().unwrap_err();
        (refusal.number, refusal.detail)
    }

    const H3: &[u8] = b"P5\n5 1\n9\n\x03\x01\x04\x00\x02";

    #[test]
    fn worked_files() {
        let call = save((5, 1), 9, &[3, 1, 4, 0, 2], 14);
        assert_eq!(call.file().unwrap(), H3);
        let shortest = save((1, 1), 1, &[0], 10);
        assert_eq!(shortest.file().unwrap(), b"P5\n1 1\n1\n\x00");
        let longest = save((40, 40), 255, &[255; 1600], LONGEST);
        let file = longest.file().unwrap();
        assert_eq!(&file[..13], b"P5\n40 40\n255\n");
        assert_eq!(&file[13..], [255; 1600]);
    }

    /// The largest sample is as given, though no pixel has it; pixels may be
    /// any bytes, also those that a header is made of.
    #[test]
    fn worked_files_of_every_number_of_digits() {
        let pixels = b"P5\n #09\x00\xff\r";
        let call = save((1, 10), 255, pixels, 22);
        assert_eq!(call.file().unwrap(), b"P5\n1 10\n255\nP5\n #09\x00\xff\r");
        let call = save((10, 1), 99, &[9; 10], 21);
        let nines = b"\x09\x09\x09\x09\x09\x09\x09\x09\x09\x09";
        assert_eq!(
            call.file().unwrap(),
            [b"P5\n10 1\n99\n", &nines[..]].concat()
        );
        let call = save((2, 2), 100, &[0, 100, 1, 0], 15);
        assert_eq!(call.file().unwrap(), b"P5\n2 2\n100\n\x00\x64\x01\x00");
    }

    #[test]
    fn output_lengths() {
        for length in [0, 1, 9, 12, 13] {
            let call = save((5, 1), 9, &[3, 1, 4, 0, 2], length);
            assert_eq!(refusal(&call), (9, None), "{}", length);
        }
        for length in [14, 15, 1613, 65_536] {
            let call = save((5, 1), 9, &[3, 1, 4, 0, 2], length);
            assert_eq!(call.file().unwrap(), H3, "{}", length);
        }
        for (length, fits) in [(1612, false), (1613, true), (1614, true)] {
            let call = save((40, 40), 255, &[7; 1600], length);
            assert_eq!(call.file().is_ok(), fits, "{}", length);
        }
        // A digit less of the largest sample is a byte less.
        assert!(save((40, 40), 99, &[7; 1600], 1612).file().is_ok());
        assert!(save((9, 40), 99, &[7; 360], 371).file().is_ok());
        assert_eq!(refusal(&save((9, 40), 100, &[7; 360], 371)), (9, None));
    }

    #[test]
    fn each_refusal_alone() {
        for side in [0, 41, 256 + 2, 65_536 + 2, u32::MAX] {
            assert_eq!(refusal(&save((side, 1), 9, &[0; 2], 99)), (3, None));
            assert_eq!(refusal(&save((1, side), 9, &[0; 2], 99)), (3, None));
        }
        for largest in [0, 256, 256 + 9, 65_536 + 9, u32::MAX] {
            assert_eq!(refusal(&save((2, 1), largest, &[0; 2], 99)), (4, None));
        }
        for length in [0, 1, 3, 256 + 2] {
            let pixels = vec![0; length];
            assert_eq!(refusal(&save((2, 1), 9, &pixels, 999)), (8, None));
        }
        assert_eq!(refusal(&save((2, 1), 9, &[0; 2], 10)), (9, None));
    }

    /// Each two of the causes 3, 4, 8, 6 and 9 at once, and all of them; the
    /// earlier one is answered. The file of 2 by 1 with 9 has 11 bytes.
    #[test]
    fn each_refusal_before_each_later_one() {
        let calls = [
            // 3 before 4, 8, 6, 9 and all.
            (save((41, 1), 0, &[0; 41], 99), (3, None)),
            (save((41, 1), 9, &[0; 40], 99), (3, None)),
            (save((41, 1), 9, &[10; 41], 99), (3, None)),
            (save((41, 1), 9, &[0; 41], 0), (3, None)),
            (save((41, 0), 256, &[10; 9], 0), (3, None)),
            // 4 before 8, 6, 9 and all behind it.
            (save((2, 1), 256, &[0; 3], 99), (4, None)),
            (save((2, 1), 0, &[1; 2], 99), (4, None)),
            (save((2, 1), 256, &[0; 2], 0), (4, None)),
            (save((2, 1), 0, &[1; 1], 0), (4, None)),
            // 8 before 6, in the picture and behind it, before 9 and both.
            (save((2, 1), 9, &[10; 1], 99), (8, None)),
            (save((2, 1), 9, &[0, 0, 10], 99), (8, None)),
            (save((2, 1), 9, &[0; 3], 10), (8, None)),
            (save((2, 1), 9, &[10; 3], 10), (8, None)),
            // 6 before 9.
            (save((2, 1), 9, &[9, 10], 10), (6, Some(1))),
            (save((2, 1), 9, &[10, 9], 0), (6, Some(0))),
        ];
        for (call, expected) in calls {
            assert_eq!(refusal(&call), expected, "{:?}", call);
        }
    }

    #[test]
    fn the_first_place_above_the_largest_sample() {
        let pixels = [9, 0, 9, 10, 9, 255];
        assert_eq!(refusal(&save((3, 2), 9, &pixels, 99)), (6, Some(3)));
        assert_eq!(refusal(&save((2, 3), 10, &pixels, 99)), (6, Some(5)));
        assert_eq!(refusal(&save((6, 1), 8, &pixels, 99)), (6, Some(0)));
        assert_eq!(refusal(&save((1, 6), 254, &pixels, 99)), (6, Some(5)));
        assert!(save((1, 6), 255, &pixels, 99).file().is_ok());
        let mut pixels = [254; 1600];
        for place in [1599, 256, 255, 0] {
            pixels[place] = 255;
            let call = save((40, 40), 254, &pixels, LONGEST);
            assert_eq!(refusal(&call), (6, Some(place)));
        }
    }

    /// The file of a generated picture.
    fn saved(picture: &Generated) -> Vec<u8> {
        let sides = (picture.width as u32, picture.height as u32);
        let call = save(sides, picture.largest as u32, &picture.pixels, LONGEST);
        call.file().unwrap()
    }

    #[test]
    fn reading_a_saved_picture_yields_it_again() {
        let mut random = Random::new(60_001);
        let mut kinds = BTreeSet::new();
        for _ in 0..1000 {
            let picture = generate::any_picture(&mut random);
            let file = saved(&picture);
            let offset = file.len() - picture.pixels.len();
            let accepted = Accepted {
                width: picture.width,
                height: picture.height,
                largest: picture.largest,
                offset,
            };
            assert_eq!(file::read(&file), Ok(accepted));
            assert_eq!(&file[offset..], picture.pixels);
            kinds.insert(picture.kind);
        }
        assert_eq!(kinds.len(), generate::KIND_COUNT);
    }

    /// No accepted file of the picture is shorter than the saved one.
    #[test]
    fn a_saved_picture_is_the_shortest_file() {
        let mut random = Random::new(60_002);
        for _ in 0..1000 {
            let picture = generate::any_picture(&mut random);
            let file = damage::accepted_file(&mut random, &picture);
            assert!(saved(&picture).len() <= file.len());
        }
    }
}
