//! The definitions, word by word, on sets of places. Slow: the program uses
//! them on small pictures only, and the tests compare the quick ones with them.

#![cfg_attr(not(test), allow(dead_code))]

use std::collections::BTreeSet;

/// The eight offsets as (column, row), in the fixed order.
pub const OFFSETS: [(i32, i32); 8] = [
    (0, -1),
    (1, -1),
    (1, 0),
    (1, 1),
    (0, 1),
    (-1, 1),
    (-1, 0),
    (-1, -1),
];

/// The father of the root.
pub const NO_FATHER: usize = 65_535;

#[derive(Clone, Copy, Debug, PartialEq)]
pub enum Adjacency {
    Four,
    Eight,
}

#[derive(Clone, Debug, PartialEq)]
pub struct Picture {
    pub width: usize,
    pub height: usize,
    pub pixels: Vec<u8>,
    pub adjacency: Adjacency,
}

impl Picture {
    pub fn count(&self) -> usize {
        self.width * self.height
    }

    pub fn value(&self, place: usize) -> i32 {
        i32::from(self.pixels[place])
    }

    pub fn largest_value(&self) -> i32 {
        (0..self.count())
            .map(|place| self.value(place))
            .max()
            .unwrap()
    }

    /// The neighbours of a place, in the order of the offsets.
    pub fn neighbours(&self, place: usize) -> Vec<usize> {
        let column = (place % self.width) as i32;
        let row = (place / self.width) as i32;
        let mut found = Vec::new();
        for (index, (column_step, row_step)) in OFFSETS.iter().enumerate() {
            // Adjacency 4 uses the first, third, fifth and seventh.
            if self.adjacency == Adjacency::Four && index % 2 == 1 {
                continue;
            }
            let other_column = column + column_step;
            let other_row = row + row_step;
            let inside = 0 <= other_column
                && other_column < self.width as i32
                && 0 <= other_row
                && other_row < self.height as i32;
            if inside {
                found.push(other_row as usize * self.width + other_column as usize);
            }
        }
        found
    }
}

/// A component carries its height.
#[derive(Clone, Debug, PartialEq)]
pub struct Component {
    pub height: i32,
    pub places: BTreeSet<usize>,
}

impl Component {
    pub fn first_place(&self) -> usize {
        *self.places.iter().next().unwrap()
    }

    pub fn lies_in(&self, other: &Component) -> bool {
        self.places.is_subset(&other.places)
    }
}

/// The section at a height: the places with a pixel at or below it.
pub fn section(picture: &Picture, height: i32) -> BTreeSet<usize> {
    (0..picture.count())
        .filter(|place| picture.value(*place) <= height)
        .collect()
}

/// The connected part of a set that has this place in it.
fn flood(picture: &Picture, set: &BTreeSet<usize>, start: usize) -> BTreeSet<usize> {
    let mut part = BTreeSet::from([start]);
    let mut waiting = vec![start];
    while let Some(place) = waiting.pop() {
        for neighbour in picture.neighbours(place) {
            if set.contains(&neighbour) && part.insert(neighbour) {
                waiting.push(neighbour);
            }
        }
    }
    part
}

/// The components of a height, by first place.
pub fn components(picture: &Picture, height: i32) -> Vec<Component> {
    let mut rest = section(picture, height);
    let mut found = Vec::new();
    while let Some(first) = rest.iter().next().copied() {
        let places = flood(picture, &rest, first);
        for place in &places {
            rest.remove(place);
        }
        found.push(Component { height, places });
    }
    found
}

/// The labels of a section: component numbers from 1, outside 0.
pub fn labels(picture: &Picture, height: i32) -> Vec<usize> {
    let mut labels = vec![0; picture.count()];
    for (index, component) in components(picture, height).iter().enumerate() {
        for place in &component.places {
            labels[*place] = index + 1;
        }
    }
    labels
}

/// The components of the height below that a component contains.
fn contained_below(picture: &Picture, component: &Component) -> Vec<Component> {
    components(picture, component.height - 1)
        .into_iter()
        .filter(|lower| lower.lies_in(component))
        .collect()
}

#[derive(Clone, Copy, Debug, PartialEq)]
pub enum Kind {
    Leaf,
    Branch,
    Fork,
}

pub fn kind(picture: &Picture, component: &Component) -> Kind {
    match contained_below(picture, component).len() {
        0 => Kind::Leaf,
        1 => Kind::Branch,
        _ => Kind::Fork,
    }
}

#[derive(Clone, Debug, PartialEq)]
pub struct Tree {
    pub heights: Vec<i32>,
    pub first_places: Vec<usize>,
    pub fathers: Vec<usize>,
    pub map: Vec<usize>,
}

/// The tree nodes, leaves and forks, by height and then by first place.
pub fn nodes(picture: &Picture) -> Vec<Component> {
    let mut nodes = Vec::new();
    for height in 0..=255 {
        for component in components(picture, height) {
            if kind(picture, &component) != Kind::Branch {
                nodes.push(component);
            }
        }
    }
    nodes
}

/// The least node above a node by containment.
fn father(nodes: &[Component], node: &Component) -> usize {
    // The nodes stand by height, so the first one found is the least.
    for (number, other) in nodes.iter().enumerate() {
        if other.height > node.height && node.lies_in(other) {
            return number;
        }
    }
    NO_FATHER
}

/// The node that the map gives to a place.
fn map_entry(picture: &Picture, nodes: &[Component], place: usize) -> usize {
    let mut component = components(picture, picture.value(place))
        .into_iter()
        .find(|component| component.places.contains(&place))
        .unwrap();
    while kind(picture, &component) == Kind::Branch {
        component = contained_below(picture, &component).remove(0);
    }
    nodes.iter().position(|node| *node == component).unwrap()
}

pub fn tree(picture: &Picture) -> Tree {
    let nodes = nodes(picture);
    Tree {
        heights: nodes.iter().map(|node| node.height).collect(),
        first_places: nodes.iter().map(|node| node.first_place()).collect(),
        fathers: nodes.iter().map(|node| father(&nodes, node)).collect(),
        map: (0..picture.count())
            .map(|place| map_entry(picture, &nodes, place))
            .collect(),
    }
}

/// Whether a pixel of value k is adjacent to exactly one component of
/// height k - 1.
pub fn lowerable(picture: &Picture, place: usize) -> bool {
    let neighbours = picture.neighbours(place);
    let adjacent = components(picture, picture.value(place) - 1)
        .into_iter()
        .filter(|component| {
            neighbours
                .iter()
                .any(|neighbour| component.places.contains(neighbour))
        })
        .count();
    adjacent == 1
}

/// While a lowerable pixel exists, take the one of least value, among
/// these the one of smallest place, and lower it by 1.
pub fn watershed(picture: &Picture) -> Picture {
    let mut result = picture.clone();
    loop {
        let taken = (0..result.count())
            .filter(|place| lowerable(&result, *place))
            .min_by_key(|place| (result.value(*place), *place));
        match taken {
            Some(place) => result.pixels[place] -= 1,
            None => return result,
        }
    }
}

/// The least height for which some component contains both places.
pub fn pass(picture: &Picture, one: usize, other: usize) -> i32 {
    (0..=255)
        .find(|height| {
            components(picture, *height).iter().any(|component| {
                component.places.contains(&one) && component.places.contains(&other)
            })
        })
        .unwrap()
}

/// The components of all heights, by height.
fn components_of_all_heights(picture: &Picture) -> Vec<Component> {
    (0..=255)
        .flat_map(|height| components(picture, height))
        .collect()
}

/// The filled picture: the filled value of a pixel is the least height for
/// which its component of that height has at least `size` pixels.
pub fn fill(picture: &Picture, size: usize) -> Picture {
    let all = components_of_all_heights(picture);
    let filled_value = |place: usize| {
        // The components stand by height, so the first one found is the least.
        let found = all
            .iter()
            .find(|component| component.places.contains(&place) && component.places.len() >= size);
        found.unwrap().height as u8
    };
    Picture {
        pixels: (0..picture.count()).map(filled_value).collect(),
        ..picture.clone()
    }
}

/// A patch record.
#[derive(Clone, Debug, PartialEq)]
pub struct Patch {
    pub number: usize,
    pub size: usize,
    pub height: i32,
    pub depth: i32,
    pub column_sum: usize,
    pub row_sum: usize,
}

/// The minima, the pixels of the leaves, by first place.
pub fn minima(picture: &Picture) -> Vec<Component> {
    let mut leaves: Vec<Component> = nodes(picture)
        .into_iter()
        .filter(|node| kind(picture, node) == Kind::Leaf)
        .collect();
    leaves.sort_by_key(|leaf| leaf.first_place());
    leaves
}

/// Whether a patch is deeper than another: its height is less, or equal with a
/// smaller patch number. The leaves stand by number.
fn deeper(leaves: &[Component], one: usize, other: usize) -> bool {
    let height = leaves[one].height;
    let other_height = leaves[other].height;
    height < other_height || (height == other_height && one < other)
}

/// The lowest pass to any deeper patch minus the patch's own height; for the
/// deepest patch the largest value minus its own height.
fn depth(picture: &Picture, leaves: &[Component], patch: usize) -> i32 {
    let first = leaves[patch].first_place();
    let lowest_pass = (0..leaves.len())
        .filter(|other| deeper(leaves, *other, patch))
        .map(|other| pass(picture, first, leaves[other].first_place()))
        .min();
    lowest_pass.unwrap_or(picture.largest_value()) - leaves[patch].height
}

pub fn patches(picture: &Picture) -> Vec<Patch> {
    let leaves = minima(picture);
    let mut patches = Vec::new();
    for (index, leaf) in leaves.iter().enumerate() {
        patches.push(Patch {
            number: index + 1,
            size: leaf.places.len(),
            height: leaf.height,
            depth: depth(picture, &leaves, index),
            column_sum: leaf.places.iter().map(|place| place % picture.width).sum(),
            row_sum: leaf.places.iter().map(|place| place / picture.width).sum(),
        });
    }
    patches
}

/// The answer of the place query: the pixel's value and the patch's
/// number, nothing for the line.
#[derive(Clone, Debug, PartialEq)]
pub struct PlaceAnswer {
    pub value: i32,
    pub patch: Option<usize>,
}

pub fn place_query(picture: &Picture, place: usize) -> PlaceAnswer {
    PlaceAnswer {
        value: picture.value(place),
        patch: minima(picture)
            .iter()
            .position(|leaf| leaf.places.contains(&place))
            .map(|index| index + 1),
    }
}

/// A setting handbook.
#[derive(Clone, Copy, Debug, PartialEq)]
pub enum Handbook {
    Four,
    Five,
}

/// The number of the patch with the lowest pass from a place, the lowest number
/// among equals. The pass to a patch is that to any place of it; here it is
/// the first.
fn patch_of_lowest_pass(picture: &Picture, place: usize) -> usize {
    let leaves = minima(picture);
    let passes = leaves.iter().enumerate().map(|(index, leaf)| {
        let number = index + 1;
        (pass(picture, place, leaf.first_place()), number)
    });
    let (_, number) = passes.min().unwrap();
    number
}

/// The answer of the touch query. Under handbook 4 it is that of the place
/// query; handbook 5 gives a touch on the line to a patch. A touch inside a
/// patch has the same answer under both.
pub fn touch_query(picture: &Picture, handbook: Handbook, place: usize) -> PlaceAnswer {
    let answer = place_query(picture, place);
    match (handbook, answer.patch) {
        (Handbook::Five, None) => PlaceAnswer {
            patch: Some(patch_of_lowest_pass(picture, place)),
            ..answer
        },
        _ => answer,
    }
}

/// Whether `other` keeps the parts of `picture`: at each height every
/// component of `picture` lies in exactly one of `other`, and every one of
/// `other` contains exactly one of `picture`.
pub fn keeps_parts(picture: &Picture, other: &Picture) -> bool {
    (0..=255).all(|height| {
        let of_picture = components(picture, height);
        let of_other = components(other, height);
        of_picture.iter().all(|component| {
            let containing = of_other.iter().filter(|part| component.lies_in(part));
            containing.count() == 1
        }) && of_other.iter().all(|part| {
            let contained = of_picture.iter().filter(|one| one.lies_in(part));
            contained.count() == 1
        })
    })
}
