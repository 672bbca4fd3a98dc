//! An example picture for filling: the wall with chalk smears. A smear is a
//! spot of 1 to 4 pixels that is darker than what is around it, so that
//! `holds` lists it as a patch of its own.
//!
//! Every hold of the wall has at least 5 pixels, the darkest one and the four
//! beside it, and these are the first 5 that come together. Filled with a least
//! size of 5, a hold rises to the value of those four and stays, and a smear
//! rises to what is around it. The smears are placed so that the filled picture
//! lists the patches of the filled wall, line for line. A larger size fills
//! small holds too.

use crate::generate::Blob;
use crate::literal::{Adjacency, Picture};
use crate::random::Random;
use crate::wall::{self, PANEL, SIDE};

const SMEARS_ON_THE_PANEL: usize = 20;
const SMEARS_ON_HOLDS: usize = 5;

/// Pixels in one piece: each further one is a neighbour of an earlier one.
fn spot(random: &mut Random, frame: &Picture) -> Vec<usize> {
    let size = random.between(1, 4);
    let mut places = vec![random.below(frame.count())];
    while places.len() < size {
        let from = random.one_of(&places);
        let next = random.one_of(&frame.neighbours(from));
        if !places.contains(&next) {
            places.push(next);
        }
    }
    places
}

/// Whether a spot lies on the panel and touches nothing else.
fn is_free(values: &[usize], frame: &Picture, places: &[usize]) -> bool {
    places.iter().all(|place| {
        let neighbours = frame.neighbours(*place);
        values[*place] == PANEL && neighbours.iter().all(|other| values[*other] == PANEL)
    })
}

/// Smears the panel, at places that chance gives.
fn smear_panel(random: &mut Random, values: &mut [usize]) {
    let frame = Picture {
        width: SIDE,
        height: SIDE,
        pixels: vec![0; SIDE * SIDE],
        adjacency: Adjacency::Four,
    };
    let mut smears = 0;
    while smears < SMEARS_ON_THE_PANEL {
        let places = spot(random, &frame);
        let chalk = random.between(140, 205);
        if is_free(values, &frame, &places) {
            places.iter().for_each(|place| values[*place] = chalk);
            smears += 1;
        }
    }
}

/// Smears a large hold: the pixel across a corner from the darkest one, on a
/// side that chance gives, and the next one outwards. The smear touches two of
/// the four pixels beside the darkest and is darker than they; it does not
/// touch the darkest.
fn smear_hold(random: &mut Random, values: &mut [usize], hold: &Blob) {
    let right = random.below(2) == 0;
    let down = random.below(2) == 0;
    let row = if down { hold.row + 1 } else { hold.row - 1 };
    for step in [1, 2] {
        let column = if right {
            hold.column + step
        } else {
            hold.column - step
        };
        values[row * SIDE + column] = hold.dark + hold.slope / 2;
    }
}

/// The wall with its smears.
fn values() -> Vec<usize> {
    let mut random = Random::new(12);
    let mut values = wall::values();
    smear_panel(&mut random, &mut values);
    let large = wall::holds().into_iter().filter(|hold| hold.reach == 5);
    for hold in large.take(SMEARS_ON_HOLDS) {
        smear_hold(&mut random, &mut values, &hold);
    }
    values
}

/// The picture as a P5 file.
pub fn file() -> Vec<u8> {
    wall::file_of(&values())
}

#[cfg(test)]
mod tests {
    use super::*;
    use crate::holds;

    fn text(file: &[u8], size: Option<&str>) -> String {
        let arguments: Vec<Vec<u8>> = size.iter().map(|size| size.as_bytes().to_vec()).collect();
        holds::text(&arguments, file)
    }

    /// The number of patches that a hold list tells.
    fn patches(text: &str) -> usize {
        let line = text.lines().nth(1).unwrap();
        line.split(' ').nth(1).unwrap().parse().unwrap()
    }

    /// Number, size and centre of each patch of a hold list.
    fn shapes(text: &str) -> Vec<[String; 4]> {
        let fields = |line: &str| -> Vec<String> { line.split(' ').map(str::to_string).collect() };
        text.lines()
            .skip(2)
            .map(fields)
            .map(|fields| [0, 1, 4, 5].map(|which: usize| fields[which].clone()))
            .collect()
    }

    #[test]
    fn the_wall_keeps_its_holds_up_to_size_5() {
        let kept = |size: &str| patches(&text(&wall::file(), Some(size)));
        for size in ["1", "2", "3", "4", "5"] {
            assert_eq!(kept(size), 40);
        }
        assert_eq!(kept("6"), 29);
        assert_eq!(kept("12"), 14);
    }

    #[test]
    fn every_smear_is_a_patch_without_filling() {
        let smears = SMEARS_ON_THE_PANEL + SMEARS_ON_HOLDS;
        assert_eq!(patches(&text(&file(), None)), 40 + smears);
    }

    #[test]
    fn filled_with_5_the_holds_are_left() {
        let filled = text(&file(), Some("5"));
        assert_eq!(patches(&filled), 40);
        assert_eq!(filled, text(&wall::file(), Some("5")));
        assert_eq!(shapes(&filled), shapes(&text(&wall::file(), None)));
        // The largest smears have 4 pixels.
        assert!(patches(&text(&file(), Some("4"))) > 40);
    }
}
