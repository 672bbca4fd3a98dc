//! Touches of the pictures worked by hand, and of small pictures compared
//! between the literal and the quick module.

use crate::generate;
use crate::hand::{generated, small_picture};
use crate::literal::{self, Adjacency, Handbook, Picture, PlaceAnswer};
use crate::question::other_adjacency;
use crate::quick;
use crate::random::Random;
use crate::worked::{staircases, touches};
use std::collections::{BTreeMap, BTreeSet};

const HANDBOOKS: [Handbook; 2] = [Handbook::Four, Handbook::Five];

#[test]
fn touches_worked_by_hand() {
    for (picture, under_four, under_five) in touches() {
        for (handbook, patches) in HANDBOOKS.into_iter().zip([under_four, under_five]) {
            assert_eq!(patches.len(), picture.count());
            for (place, patch) in patches.into_iter().enumerate() {
                let expected = PlaceAnswer {
                    value: picture.value(place),
                    patch: (patch != 0).then_some(patch),
                };
                let answer = literal::touch_query(&picture, handbook, place);
                assert_eq!(answer, expected, "{:?} {} {:?}", handbook, place, picture);
                let answer = quick::touch_query(&picture, handbook, place);
                assert_eq!(answer, expected, "{:?} {} {:?}", handbook, place, picture);
            }
        }
    }
}

/// The passes rise from the first hold on, so that it is in the part of each
/// pass, and of the walls.
#[test]
fn touches_of_the_rising_climb() {
    let [(picture, _), _] = staircases();
    let numbers = quick::patch_numbers(&picture);
    for (place, number) in numbers.into_iter().enumerate() {
        let answer = quick::touch_query(&picture, Handbook::Five, place);
        assert_eq!(answer.patch, number.or(Some(1)));
    }
}

/// How many touches there were: all, those on the line, and those on the line
/// that have the lowest pass to several patches.
#[derive(Debug, Default)]
struct Counts {
    all: usize,
    line: usize,
    ties: usize,
}

/// The numbers of the patches in that part of the section at a pixel's own value
/// that has the pixel in it.
///
/// There is at least one. So the lowest pass from the pixel is its value, and
/// these are the patches that have it.
fn patches_of_part(picture: &Picture, place: usize) -> BTreeSet<usize> {
    let labels = literal::labels(picture, picture.value(place));
    let numbers = quick::patch_numbers(picture);
    let of_part = (0..picture.count()).filter(|other| labels[*other] == labels[place]);
    of_part.filter_map(|other| numbers[other]).collect()
}

/// Asserts that the modules answer the same for each place under each
/// handbook, that the answer under 4 is that of the place query, that the one
/// under 5 is a patch, and that a patch is the same under both.
fn assert_touches(counts: &mut Counts, picture: &Picture) {
    for place in 0..picture.count() {
        let [under_four, under_five] = HANDBOOKS.map(|handbook| {
            let answer = literal::touch_query(picture, handbook, place);
            let quick_answer = quick::touch_query(picture, handbook, place);
            assert_eq!(quick_answer, answer, "{} {:?}", place, picture);
            answer
        });
        assert_eq!(under_four, quick::place_query(picture, place));
        assert_eq!(under_five.value, under_four.value);
        assert!(under_five.patch.is_some(), "{} {:?}", place, picture);
        counts.all += 1;
        if under_four.patch.is_some() {
            assert_eq!(under_five, under_four, "{} {:?}", place, picture);
        } else {
            counts.line += 1;
            counts.ties += usize::from(patches_of_part(picture, place).len() > 1);
        }
    }
}

/// Under both adjacencies.
fn assert_touches_of(counts: &mut Counts, given: Picture) {
    assert_touches(counts, &other_adjacency(&given));
    assert_touches(counts, &given);
}

#[test]
fn touches_of_small_pictures() {
    let mut random = Random::new(11);
    let mut counts = Counts::default();
    for _ in 0..80 {
        let sides = (random.between(1, 5), random.between(1, 4));
        let largest = random.between(1, 8);
        let base = random.one_of(&[0, 0, 0, 7, 247]);
        let given = small_picture(&mut random, sides, base, largest);
        assert_touches_of(&mut counts, literal::watershed(&given));
        assert_touches_of(&mut counts, given);
    }
    assert!(counts.line >= 500 && counts.ties >= 200, "{:?}", counts);
}

#[test]
fn touches_of_every_kind() {
    let mut random = Random::new(12);
    let mut kinds: BTreeMap<&str, usize> = BTreeMap::new();
    let mut counts = Counts::default();
    for _ in 0..90 {
        let sides = (random.between(1, 6), random.between(1, 4));
        let (kind, picture) = generated(&mut random, sides);
        *kinds.entry(kind).or_insert(0) += 1;
        assert_touches_of(&mut counts, picture);
    }
    assert_eq!(kinds.len(), generate::KIND_COUNT);
    assert!(kinds.values().all(|count| *count >= 3), "{:?}", kinds);
    assert!(counts.line >= 500 && counts.ties >= 200, "{:?}", counts);
}

/// Every picture of these sides whose values are 0, 1 and 2.
fn every_picture(width: usize, height: usize) -> Vec<Picture> {
    let mut all = vec![Vec::new()];
    for _ in 0..width * height {
        let longer = |pixels: Vec<u8>| (0..3).map(move |value| [&pixels[..], &[value]].concat());
        all = all.into_iter().flat_map(longer).collect();
    }
    let pictures = all.into_iter().map(|pixels| Picture {
        width,
        height,
        pixels,
        adjacency: Adjacency::Four,
    });
    pictures.collect()
}

#[test]
fn touches_of_every_picture_of_few_pixels() {
    let mut counts = Counts::default();
    for (width, height) in [(2, 2), (5, 1)] {
        for picture in every_picture(width, height) {
            assert_touches_of(&mut counts, picture);
        }
    }
    assert_eq!(counts.all, 2 * (81 * 4 + 243 * 5));
}

/// The pass to a patch is the same to any place of it.
#[test]
fn passes_to_the_places_of_a_patch() {
    let mut random = Random::new(13);
    for _ in 0..40 {
        let sides = (random.between(1, 5), random.between(1, 4));
        let picture = small_picture(&mut random, sides, 0, 2);
        let place = random.below(picture.count());
        for leaf in literal::minima(&picture) {
            let first = literal::pass(&picture, place, leaf.first_place());
            for other in leaf.places {
                assert_eq!(literal::pass(&picture, place, other), first);
            }
        }
    }
}

/// The patch is the first one of the pixel's part.
#[test]
fn touches_of_large_pictures() {
    let mut random = Random::new(14);
    let mut above_one = 0;
    for _ in 0..100 {
        let (_, picture) = generated(&mut random, (40, 40));
        for _ in 0..8 {
            let place = random.below(picture.count());
            let first = patches_of_part(&picture, place).first().copied();
            let answer = quick::touch_query(&picture, Handbook::Five, place);
            assert_eq!(answer.patch, first, "{} {:?}", place, picture);
            let on_the_line = quick::place_query(&picture, place).patch.is_none();
            above_one += usize::from(on_the_line && first > Some(1));
        }
    }
    assert!(above_one >= 50, "{}", above_one);
}
