//! The same filling as the literal module's, quick enough for 40 by 40
//! pictures. The tests compare the two on small pictures.

use crate::literal::Picture;

/// Parts of a picture. They join while the height rises.
struct Parts {
    /// For each place the number of its part.
    numbers: Vec<usize>,
    /// For each number the places of the part, none after it has joined another.
    places: Vec<Vec<usize>>,
}

impl Parts {
    /// Every place alone.
    fn new(count: usize) -> Parts {
        Parts {
            numbers: (0..count).collect(),
            places: (0..count).map(|place| vec![place]).collect(),
        }
    }

    /// The places of the part that has this place in it.
    fn part(&self, place: usize) -> &[usize] {
        &self.places[self.numbers[place]]
    }

    /// Joins the parts of two places: the smaller one goes into the larger.
    fn join(&mut self, one: usize, other: usize) {
        let (mut from, mut into) = (self.numbers[one], self.numbers[other]);
        if from == into {
            return;
        }
        if self.places[from].len() > self.places[into].len() {
            std::mem::swap(&mut from, &mut into);
        }
        let moved = std::mem::take(&mut self.places[from]);
        for place in &moved {
            self.numbers[*place] = into;
        }
        self.places[into].extend(moved);
    }
}

/// The filled picture, from the lowest height up.
///
/// From one height to the next only those parts change that have a pixel of
/// this value in them. When such a part has grown to the size, each of its
/// pixels that has no filled value yet takes this height.
pub fn fill(picture: &Picture, size: usize) -> Picture {
    let mut parts = Parts::new(picture.count());
    let mut filled: Vec<Option<u8>> = vec![None; picture.count()];
    for height in 0..=255 {
        let places: Vec<usize> = (0..picture.count())
            .filter(|place| picture.pixels[*place] == height)
            .collect();
        for place in &places {
            for neighbour in picture.neighbours(*place) {
                if picture.pixels[neighbour] <= height {
                    parts.join(*place, neighbour);
                }
            }
        }
        for place in places {
            if filled[place].is_none() && parts.part(place).len() >= size {
                for member in parts.part(place) {
                    filled[*member].get_or_insert(height);
                }
            }
        }
    }
    Picture {
        pixels: filled.into_iter().map(Option::unwrap).collect(),
        ..picture.clone()
    }
}

#[cfg(test)]
mod tests {
    use super::*;
    use crate::generate;
    use crate::literal::{self, Adjacency, Component};
    use crate::random::Random;
    use crate::worked::{eight, four};
    use std::collections::BTreeSet;

    /// Mark, picture, sizes, filled picture; worked by hand.
    fn table() -> Vec<(&'static str, Picture, Vec<usize>, Picture)> {
        let flat = "7 7 7 / 7 7 7 / 7 7 7";
        let ring = "0 0 0 / 0 5 0 / 0 0 0";
        vec![
            ("H1", four("9"), vec![1], four("9")),
            ("H2", four("0 1"), vec![1], four("0 1")),
            ("H2", four("0 1"), vec![2], four("1 1")),
            ("H3", four("3 1 4 0 2"), vec![2], four("3 3 4 2 2")),
            ("H3", four("3 1 4 0 2"), vec![3, 4, 5], four("4 4 4 4 4")),
            ("H4", four("0 5 / 5 0"), vec![1], four("0 5 / 5 0")),
            ("H4", four("0 5 / 5 0"), vec![2, 3, 4], four("5 5 / 5 5")),
            ("H5", eight("0 5 / 5 0"), vec![1, 2], eight("0 5 / 5 0")),
            ("H5", eight("0 5 / 5 0"), vec![3, 4], eight("5 5 / 5 5")),
            ("H6", four(flat), vec![1, 5, 9], four(flat)),
            ("H7", four(ring), vec![1, 2, 7, 8], four(ring)),
            ("H7", four(ring), vec![9], four("5 5 5 / 5 5 5 / 5 5 5")),
            ("H8", four("0 3 3 3 1"), vec![2, 5], four("3 3 3 3 3")),
            ("H9", four("0 3 3 1"), vec![2, 3, 4], four("3 3 3 3")),
            (
                "H10",
                four("0 5 2 / 3 3 3"),
                vec![2, 3, 4, 5],
                four("3 5 3 / 3 3 3"),
            ),
            ("H10", four("0 5 2 / 3 3 3"), vec![6], four("5 5 5 / 5 5 5")),
        ]
    }

    #[test]
    fn worked_pictures() {
        for (mark, given, sizes, expected) in table() {
            for size in sizes {
                let filled = literal::fill(&given, size);
                assert_eq!(filled, expected, "{} {}", mark, size);
                assert_eq!(fill(&given, size), expected, "{} {}", mark, size);
            }
        }
    }

    /// A generated picture under both adjacencies, and the name of its kind.
    fn pictures(random: &mut Random, sides: (usize, usize)) -> (&'static str, [Picture; 2]) {
        let generated = generate::picture(random, sides);
        let under = |adjacency| Picture {
            width: generated.width,
            height: generated.height,
            pixels: generated.pixels.clone(),
            adjacency,
        };
        let both = [under(Adjacency::Four), under(Adjacency::Eight)];
        (generated.kind, both)
    }

    #[test]
    fn literal_and_quick_agree_on_all_sizes_of_small_pictures() {
        let mut random = Random::new(3);
        let mut kinds = BTreeSet::new();
        for _ in 0..300 {
            let sides = (random.between(1, 5), random.between(1, 4));
            let (kind, both) = pictures(&mut random, sides);
            kinds.insert(kind);
            for picture in both {
                for size in 1..=picture.count() {
                    let filled = literal::fill(&picture, size);
                    assert_eq!(fill(&picture, size), filled, "{:?} {}", picture, size);
                }
            }
        }
        assert_eq!(kinds.len(), generate::KIND_COUNT);
    }

    /// Asserts what is stated of a filled picture. At every height its
    /// components are those of the picture that have at least `size` pixels.
    fn assert_filled(picture: &Picture, size: usize) {
        let filled = fill(picture, size);
        let none_falls = |place| filled.value(place) >= picture.value(place);
        assert!((0..picture.count()).all(none_falls), "{:?}", picture);
        assert_eq!(fill(&filled, size), filled, "{:?}", picture);
        let values: BTreeSet<u8> = [&picture.pixels[..], &filled.pixels[..], &[0, 255]]
            .concat()
            .into_iter()
            .collect();
        for height in values.into_iter().map(i32::from) {
            let large: Vec<Component> = literal::components(picture, height)
                .into_iter()
                .filter(|component| component.places.len() >= size)
                .collect();
            assert_eq!(literal::components(&filled, height), large, "{:?}", picture);
        }
    }

    #[test]
    fn stated_properties_on_small_pictures() {
        let mut random = Random::new(4);
        for _ in 0..150 {
            let sides = (random.between(1, 6), random.between(1, 6));
            for picture in pictures(&mut random, sides).1 {
                assert_eq!(fill(&picture, 1), picture);
                (1..=picture.count()).for_each(|size| assert_filled(&picture, size));
            }
        }
    }

    #[test]
    fn stated_properties_on_large_pictures() {
        let mut random = Random::new(5);
        for _ in 0..7 {
            for picture in pictures(&mut random, (40, 40)).1 {
                assert_eq!(fill(&picture, 1), picture);
                for size in [2, 5, random.between(2, 100), random.between(1, 1600), 1600] {
                    assert_filled(&picture, size);
                }
            }
        }
    }

    #[test]
    fn size_n_is_the_largest_value() {
        let mut random = Random::new(6);
        for picture in pictures(&mut random, (40, 40)).1 {
            let largest = picture.largest_value();
            let filled = fill(&picture, 1600);
            assert!((0..1600).all(|place| filled.value(place) == largest));
        }
    }
}
