//! An example picture: a pale climbing wall panel with dark holds.

use crate::generate::Blob;
use crate::random::Random;

pub const SIDE: usize = 40;
pub const PANEL: usize = 225;
const LARGEST: usize = 255;

/// The panel is divided into 7 columns and 6 rows of cells, and every cell
/// but two has one hold.
pub fn holds() -> Vec<Blob> {
    let mut random = Random::new(40);
    let of_cells: Vec<Blob> = (0..42).map(|cell| hold(&mut random, cell)).collect();
    of_cells
        .into_iter()
        .enumerate()
        .filter(|(cell, _)| *cell != 16 && *cell != 33)
        .map(|(_, hold)| hold)
        .collect()
}

/// A hold: a darkest pixel near the middle of the cell, and round it pixels
/// that grow paler with the distance.
fn hold(random: &mut Random, cell: usize) -> Blob {
    Blob {
        column: (cell % 7) * 40 / 7 + 1 + random.below(3),
        row: (cell / 7) * 40 / 6 + 2 + random.below(3),
        dark: random.between(20, 110),
        slope: random.between(12, 20),
        reach: random.one_of(&[1, 2, 2, 4, 5]),
    }
}

/// The values of the wall: the panel is one pale value, but for its holds.
pub fn values() -> Vec<usize> {
    let mut values = vec![PANEL; SIDE * SIDE];
    for hold in holds() {
        hold.darken(&mut values, SIDE);
    }
    values
}

/// Values of a picture with the wall's sides as a P5 file.
pub fn file_of(values: &[usize]) -> Vec<u8> {
    let mut file = format!("P5\n{} {}\n{}\n", SIDE, SIDE, LARGEST).into_bytes();
    file.extend(values.iter().map(|value| *value as u8));
    file
}

/// The picture as a P5 file.
pub fn file() -> Vec<u8> {
    file_of(&values())
}

#[cfg(test)]
mod tests {
    use super::*;
    use crate::holds;

    #[test]
    fn the_wall_has_forty_holds() {
        assert!(file().len() <= 4096);
        let text = holds::text(&[], &file());
        assert!(
            text.starts_with("picture 40 40\npatches 40 line "),
            "{}",
            text
        );
    }
}
