//! The pictures worked by hand, and small pictures compared between the
//! literal and the quick module.

use crate::generate;
use crate::holds;
use crate::literal::{self, Adjacency, Component, Patch, Picture, PlaceAnswer, Tree, NO_FATHER};
use crate::question::other_adjacency;
use crate::quick;
use crate::random::Random;
use crate::worked::{centres, depths, file_of, four, staircases, table};
use std::collections::BTreeMap;

#[test]
fn watersheds_literal() {
    for (mark, given, expected) in table() {
        assert_eq!(literal::watershed(&given), expected, "{}", mark);
    }
}

#[test]
fn watersheds_quick() {
    for (mark, given, expected) in table() {
        assert_eq!(quick::watershed(&given), expected, "{}", mark);
    }
}

#[test]
fn tree_of_h3() {
    let expected = Tree {
        heights: vec![0, 1, 4],
        first_places: vec![3, 1, 0],
        fathers: vec![2, 2, NO_FATHER],
        map: vec![1, 1, 2, 0, 0],
    };
    assert_eq!(literal::tree(&four("3 1 4 0 2")), expected);
}

#[test]
fn tree_of_h10_and_its_pass() {
    let given = four("0 5 2 / 3 3 3");
    let expected = Tree {
        heights: vec![0, 2, 3],
        first_places: vec![0, 2, 0],
        fathers: vec![2, 2, NO_FATHER],
        map: vec![0, 2, 1, 2, 2, 2],
    };
    assert_eq!(literal::tree(&given), expected);
    assert_eq!(literal::pass(&given, 0, 2), 3);
}

#[test]
fn tree_of_one_node() {
    let expected = Tree {
        heights: vec![9],
        first_places: vec![0],
        fathers: vec![NO_FATHER],
        map: vec![0],
    };
    assert_eq!(literal::tree(&four("9")), expected);
}

#[test]
fn passes_of_h3() {
    let given = four("3 1 4 0 2");
    assert_eq!(literal::pass(&given, 0, 0), 3);
    assert_eq!(literal::pass(&given, 0, 1), 3);
    assert_eq!(literal::pass(&given, 3, 4), 2);
    assert_eq!(literal::pass(&given, 1, 3), 4);
}

#[test]
fn labels_of_h3() {
    let given = four("3 1 4 0 2");
    assert_eq!(literal::labels(&given, 0), [0, 0, 0, 1, 0]);
    assert_eq!(literal::labels(&given, 1), [0, 1, 0, 2, 0]);
    assert_eq!(literal::labels(&given, 3), [1, 1, 0, 2, 2]);
    assert_eq!(literal::labels(&given, 255), [1, 1, 1, 1, 1]);
}

#[test]
fn lowerable_pixels_of_h3() {
    let given = four("3 1 4 0 2");
    let answers: Vec<bool> = (0..5)
        .map(|place| literal::lowerable(&given, place))
        .collect();
    assert_eq!(answers, [true, false, false, false, true]);
}

#[test]
fn patches_and_places_of_h3() {
    let given = four("3 1 4 0 2");
    let record = |number, height, depth, column_sum| Patch {
        number,
        size: 1,
        height,
        depth,
        column_sum,
        row_sum: 0,
    };
    let expected = vec![record(1, 1, 3, 1), record(2, 0, 4, 3)];
    assert_eq!(literal::patches(&given), expected);
    assert_eq!(quick::patches(&given), expected);
    let answer = |value, patch| PlaceAnswer { value, patch };
    assert_eq!(literal::place_query(&given, 0), answer(3, None));
    assert_eq!(literal::place_query(&given, 1), answer(1, Some(1)));
    assert_eq!(literal::place_query(&given, 3), answer(0, Some(2)));
}

fn depths_of(patches: &[Patch]) -> Vec<i32> {
    patches.iter().map(|patch| patch.depth).collect()
}

#[test]
fn depths_worked_by_hand() {
    for (given, expected) in depths() {
        assert_eq!(depths_of(&literal::patches(&given)), expected, "{given:?}");
        assert_eq!(depths_of(&quick::patches(&given)), expected, "{given:?}");
    }
}

#[test]
fn depth_of_a_lone_patch() {
    let given = four("2 7 / 3 9");
    for patches in [literal::patches(&given), quick::patches(&given)] {
        assert_eq!(patches.len(), 1);
        assert_eq!(patches[0].depth, 7);
    }
}

#[test]
fn depths_of_the_longest_climbs() {
    for (given, expected) in staircases() {
        assert_eq!(depths_of(&quick::patches(&given)), expected);
    }
}

/// The largest value is that of the picture whose patches are listed.
#[test]
fn depths_of_a_picture_and_of_its_watershed() {
    for (given, expected, lowered) in [
        ("5 0 3 1 9", vec![9, 2], vec![3, 2]),
        ("0 5 2 / 3 3 3", vec![5, 1], vec![3, 1]),
        ("2 7 / 3 9", vec![7], vec![0]),
    ] {
        let given = four(given);
        assert_eq!(depths_of(&literal::patches(&given)), expected);
        assert_eq!(depths_of(&quick::patches(&given)), expected);
        let watershed = literal::watershed(&given);
        assert_eq!(depths_of(&literal::patches(&watershed)), lowered);
        assert_eq!(depths_of(&quick::patches(&watershed)), lowered);
    }
}

#[test]
fn holds_of_h3() {
    let text = holds::text(&[], b"P5\n5 1\n9\n\x03\x01\x04\x00\x02");
    assert_eq!(
        text,
        "picture 5 1\npatches 2 line 1\n1 2 1 3 5 0\n2 2 0 4 35 0\n"
    );
}

/// The largest sample of the file does not matter.
#[test]
fn holds_of_the_row_of_the_request() {
    let expected = "picture 5 1\npatches 3 line 2\n1 1 0 9 0 0\n2 1 1 1 20 0\n3 1 5 4 40 0\n";
    for largest in ["9", "255"] {
        let header = format!("P5\n5 1\n{}\n", largest).into_bytes();
        let file = [&header[..], &[0, 2, 1, 9, 5]].concat();
        assert_eq!(holds::text(&[], &file), expected);
    }
}

#[test]
fn holds_of_centres_worked_by_hand() {
    for (given, expected) in centres() {
        assert_eq!(quick::watershed(&given), given);
        for arguments in [vec![], vec![b"1".to_vec()]] {
            let text = holds::text(&arguments, &file_of(&given));
            assert_eq!(text, expected, "{given:?}");
        }
    }
}

#[test]
fn holds_of_a_refused_file() {
    assert_eq!(holds::text(&[], b"P5\n41 1\n9\n"), "refused 3\n");
}

/// A picture with values from `base` to `base` + `largest`.
pub fn small_picture(
    random: &mut Random,
    (width, height): (usize, usize),
    base: usize,
    largest: usize,
) -> Picture {
    Picture {
        width,
        height,
        pixels: (0..width * height)
            .map(|_| (base + random.below(largest + 1)) as u8)
            .collect(),
        adjacency: random.one_of(&[Adjacency::Four, Adjacency::Eight]),
    }
}

/// Asserts that the literal and the quick module answer the same for a
/// picture.
fn assert_agreement(random: &mut Random, picture: &Picture) {
    let patches = literal::patches(picture);
    assert_eq!(quick::patches(picture), patches, "{:?}", picture);
    let tree = literal::tree(picture);
    assert_eq!(quick::tree(picture), tree, "{:?}", picture);
    for place in 0..picture.count() {
        let other = random.below(picture.count());
        let pass = literal::pass(picture, place, other);
        assert_eq!(quick::pass(picture, place, other), pass, "{:?}", picture);
        let answer = literal::place_query(picture, place);
        assert_eq!(quick::place_query(picture, place), answer, "{:?}", picture);
    }
}

#[test]
fn literal_and_quick_agree_on_small_pictures() {
    let mut random = Random::new(1);
    for _ in 0..250 {
        let sides = (random.between(1, 5), random.between(1, 4));
        let largest = random.between(1, 6);
        let base = random.one_of(&[0, 0, 0, 7, 249]);
        let given = small_picture(&mut random, sides, base, largest);
        let lowered = literal::watershed(&given);
        assert_eq!(quick::watershed(&given), lowered, "{:?}", given);
        assert!((0..given.count()).all(|place| !literal::lowerable(&lowered, place)));
        assert_agreement(&mut random, &given);
        assert_agreement(&mut random, &lowered);
    }
}

/// Asserts that both modules list the same patches under both adjacencies.
fn assert_same_patches(given: Picture) {
    for picture in [other_adjacency(&given), given] {
        let patches = literal::patches(&picture);
        assert_eq!(quick::patches(&picture), patches, "{:?}", picture);
    }
}

#[test]
fn literal_and_quick_list_the_same_patches_of_few_values() {
    let mut random = Random::new(8);
    for _ in 0..300 {
        let sides = (random.between(1, 7), random.between(1, 6));
        let largest = random.between(1, 3);
        assert_same_patches(small_picture(&mut random, sides, 0, largest));
    }
}

/// A generated picture, and the name of its kind.
pub fn generated(random: &mut Random, sides: (usize, usize)) -> (&'static str, Picture) {
    let generated = generate::picture(random, sides);
    let picture = Picture {
        width: generated.width,
        height: generated.height,
        pixels: generated.pixels,
        adjacency: random.one_of(&[Adjacency::Four, Adjacency::Eight]),
    };
    (generated.kind, picture)
}

#[test]
fn literal_and_quick_list_the_same_patches_of_every_kind() {
    let mut random = Random::new(9);
    let mut kinds: BTreeMap<&str, usize> = BTreeMap::new();
    for _ in 0..300 {
        let sides = (random.between(1, 9), random.between(1, 5));
        let (kind, picture) = generated(&mut random, sides);
        *kinds.entry(kind).or_insert(0) += 1;
        assert_same_patches(picture);
    }
    assert_eq!(kinds.len(), generate::KIND_COUNT);
    assert!(kinds.values().all(|count| *count >= 10), "{:?}", kinds);
}

/// The height and the first place of each leaf, by first place.
fn leaves(tree: &Tree) -> Vec<(i32, usize)> {
    let mut leaves: Vec<(i32, usize)> = (0..tree.heights.len())
        .filter(|node| !tree.fathers.contains(node))
        .map(|node| (tree.heights[node], tree.first_places[node]))
        .collect();
    leaves.sort_by_key(|(_, first)| *first);
    leaves
}

/// The leaves in that part of the section at a height that has this leaf in it.
fn leaves_met(
    picture: &Picture,
    leaves: &[(i32, usize)],
    leaf: (i32, usize),
    height: i32,
) -> Vec<(i32, usize)> {
    let labels = literal::labels(picture, height);
    let of_part = |other: &(i32, usize)| labels[other.1] == labels[leaf.1];
    leaves.iter().copied().filter(of_part).collect()
}

/// Asserts that a leaf's climb ends at the first height at which it meets a
/// deeper one: one of less height, or equal with a smaller first place. Answers
/// how many others it meets below.
fn assert_climb(picture: &Picture, leaves: &[(i32, usize)], leaf: (i32, usize), end: i32) -> usize {
    if leaves.iter().min() == Some(&leaf) {
        assert_eq!(end, picture.largest_value(), "{:?}", picture);
        return 0;
    }
    let at_end = leaves_met(picture, leaves, leaf, end);
    assert!(at_end.iter().min() < Some(&leaf), "{:?}", picture);
    let below = leaves_met(picture, leaves, leaf, end - 1);
    assert_eq!(below.iter().min(), Some(&leaf), "{:?}", picture);
    below.len() - 1
}

#[test]
fn climbs_of_large_pictures() {
    let mut random = Random::new(10);
    let mut met = Vec::new();
    for _ in 0..100 {
        let (_, picture) = generated(&mut random, (40, 40));
        let patches = quick::patches(&picture);
        let leaves = leaves(&quick::tree(&picture));
        assert_eq!(patches.len(), leaves.len());
        for _ in 0..8 {
            let index = random.below(leaves.len());
            let end = leaves[index].0 + patches[index].depth;
            met.push(assert_climb(&picture, &leaves, leaves[index], end));
        }
    }
    let with_at_least = |least| met.iter().filter(|count| **count >= least).count();
    assert!(with_at_least(1) >= 100, "{:?}", met);
    assert!(with_at_least(10) >= 10, "{:?}", met);
}

/// The partner of a node: the only one of its height whose component
/// contains the node's.
fn partner(node: &Component, lowered_nodes: &[Component]) -> usize {
    let found: Vec<usize> = (0..lowered_nodes.len())
        .filter(|other| {
            node.height == lowered_nodes[*other].height && node.lies_in(&lowered_nodes[*other])
        })
        .collect();
    assert_eq!(found.len(), 1, "{:?} among {:?}", node, lowered_nodes);
    found[0]
}

/// Asserts that the father of a node's partner is the partner of its father.
fn assert_kept_fathers(given: &Picture, lowered: &Picture) {
    let nodes = literal::nodes(given);
    let lowered_nodes = literal::nodes(lowered);
    assert_eq!(nodes.len(), lowered_nodes.len(), "{:?}", given);
    let fathers = literal::tree(given).fathers;
    let lowered_fathers = literal::tree(lowered).fathers;
    for (number, node) in nodes.iter().enumerate() {
        let expected = match fathers[number] {
            NO_FATHER => NO_FATHER,
            father => partner(&nodes[father], &lowered_nodes),
        };
        let father_of_partner = lowered_fathers[partner(node, &lowered_nodes)];
        assert_eq!(father_of_partner, expected, "{:?}", given);
    }
}

/// Asserts that the passes between two different minima are kept.
fn assert_kept_passes(given: &Picture, lowered: &Picture) {
    let minima = literal::minima(given);
    let firsts: Vec<usize> = minima.iter().map(Component::first_place).collect();
    for one in &firsts {
        for other in firsts.iter().filter(|other| *other != one) {
            let pass = literal::pass(given, *one, *other);
            assert_eq!(literal::pass(lowered, *one, *other), pass, "{:?}", given);
        }
    }
}

#[test]
fn watershed_keeps_parts_heights_fathers_and_passes() {
    let mut random = Random::new(2);
    for _ in 0..100 {
        let sides = (random.between(1, 4), random.between(1, 4));
        let given = small_picture(&mut random, sides, 0, 5);
        let lowered = quick::watershed(&given);
        assert!(literal::keeps_parts(&given, &lowered), "{:?}", given);
        assert_kept_fathers(&given, &lowered);
        assert_kept_passes(&given, &lowered);
    }
}
