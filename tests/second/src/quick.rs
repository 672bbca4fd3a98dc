//! The same answers as the literal module, quick enough for 40 by 40
//! pictures. The tests compare the two on small pictures.

use crate::literal::{Handbook, Patch, Picture, PlaceAnswer, Tree, NO_FATHER};
use std::collections::BTreeSet;

fn all_neighbours(picture: &Picture) -> Vec<Vec<usize>> {
    (0..picture.count())
        .map(|place| picture.neighbours(place))
        .collect()
}

/// Gives a label to the component of the section at a height that has this
/// place in it.
fn flood(
    picture: &Picture,
    neighbours: &[Vec<usize>],
    height: i32,
    first: usize,
    label: usize,
    labels: &mut [usize],
) {
    labels[first] = label;
    let mut waiting = vec![first];
    while let Some(place) = waiting.pop() {
        for neighbour in &neighbours[place] {
            if picture.value(*neighbour) <= height && labels[*neighbour] == 0 {
                labels[*neighbour] = label;
                waiting.push(*neighbour);
            }
        }
    }
}

/// The labels of the section at a height, by flooding.
fn labels_of_section(picture: &Picture, neighbours: &[Vec<usize>], height: i32) -> Vec<usize> {
    let mut labels = vec![0; picture.count()];
    let mut last_label = 0;
    for first in 0..picture.count() {
        if picture.value(first) <= height && labels[first] == 0 {
            last_label += 1;
            flood(picture, neighbours, height, first, last_label, &mut labels);
        }
    }
    labels
}

/// The labels of all sections; the index is the height, 0 to 255.
fn labels_of_all_sections(picture: &Picture, neighbours: &[Vec<usize>]) -> Vec<Vec<usize>> {
    let mut all: Vec<Vec<usize>> = Vec::new();
    for height in 0..=255 {
        let same_as_below = height > 0 && !picture.pixels.contains(&(height as u8));
        if same_as_below {
            all.push(all[height - 1].clone());
        } else {
            all.push(labels_of_section(picture, neighbours, height as i32));
        }
    }
    all
}

/// A picture that is being lowered.
struct Lowering {
    picture: Picture,
    neighbours: Vec<Vec<usize>>,
    labels: Vec<Vec<usize>>,
    /// The lowerable pixels as (value, place): the first one is taken next.
    lowerable: BTreeSet<(usize, usize)>,
}

impl Lowering {
    /// The label of the component of the height below that a pixel touches,
    /// if it touches exactly one.
    fn one_component(&self, place: usize) -> Option<usize> {
        let below = self.picture.pixels[place].checked_sub(1)?;
        let mut found = None;
        for neighbour in &self.neighbours[place] {
            let label = self.labels[usize::from(below)][*neighbour];
            if label == 0 {
                continue;
            }
            if found.is_some() && found != Some(label) {
                return None;
            }
            found = Some(label);
        }
        found
    }

    /// Takes a place in or out of the lowerable ones.
    fn test(&mut self, place: usize) {
        let entry = (usize::from(self.picture.pixels[place]), place);
        if self.one_component(place).is_some() {
            self.lowerable.insert(entry);
        } else {
            self.lowerable.remove(&entry);
        }
    }

    /// Lowers a lowerable pixel by 1.
    fn lower(&mut self, value: usize, place: usize) {
        self.labels[value - 1][place] = self.one_component(place).unwrap();
        self.picture.pixels[place] -= 1;
        for index in 0..self.neighbours[place].len() {
            self.test(self.neighbours[place][index]);
        }
        self.test(place);
    }
}

/// The watershed, one grey step at a time in the stated order.
///
/// Lowering a pixel x from k to k - 1 changes one section only, that of
/// height k - 1, which gains x. As x touches exactly one component there,
/// x joins that component and no two components join. So no other label
/// changes. Only x and its neighbours can become or stop being lowerable:
/// any other pixel of value k touches the same components as before, and
/// a pixel of another value is tested against another section.
pub fn watershed(picture: &Picture) -> Picture {
    let neighbours = all_neighbours(picture);
    let mut lowering = Lowering {
        picture: picture.clone(),
        labels: labels_of_all_sections(picture, &neighbours),
        neighbours,
        lowerable: BTreeSet::new(),
    };
    for place in 0..picture.count() {
        lowering.test(place);
    }
    while let Some((value, place)) = lowering.lowerable.pop_first() {
        lowering.lower(value, place);
    }
    lowering.picture
}

/// The connected part of equal pixels that has this place in it, if it
/// touches no lower pixel.
fn minimum(
    picture: &Picture,
    neighbours: &[Vec<usize>],
    first: usize,
    seen: &mut [bool],
) -> Option<Vec<usize>> {
    seen[first] = true;
    let mut places = vec![first];
    let mut touches_lower = false;
    let mut next = 0;
    while next < places.len() {
        for neighbour in &neighbours[places[next]] {
            if picture.value(*neighbour) < picture.value(first) {
                touches_lower = true;
            }
            if picture.value(*neighbour) == picture.value(first) && !seen[*neighbour] {
                seen[*neighbour] = true;
                places.push(*neighbour);
            }
        }
        next += 1;
    }
    (!touches_lower).then_some(places)
}

/// The minima by first place: connected parts of equal pixels that touch
/// no lower pixel.
fn minima(picture: &Picture, neighbours: &[Vec<usize>]) -> Vec<Vec<usize>> {
    let mut seen = vec![false; picture.count()];
    let mut minima = Vec::new();
    for first in 0..picture.count() {
        if !seen[first] {
            minima.extend(minimum(picture, neighbours, first, &mut seen));
        }
    }
    minima
}

/// For each label of a section the number of components of the height below
/// that the component contains.
fn contained_counts(labels: &[usize], labels_below: &[usize]) -> Vec<usize> {
    let components = labels.iter().copied().max().unwrap();
    let mut counts = vec![0; components + 1];
    let mut seen = BTreeSet::from([0]);
    for (place, label_below) in labels_below.iter().enumerate() {
        if seen.insert(*label_below) {
            counts[labels[place]] += 1;
        }
    }
    counts
}

/// All sections; the first index is the height, 0 to 255.
struct Sections {
    labels: Vec<Vec<usize>>,
    /// For each label the number of contained components.
    counts: Vec<Vec<usize>>,
}

impl Sections {
    fn new(picture: &Picture, neighbours: &[Vec<usize>]) -> Sections {
        let labels = labels_of_all_sections(picture, neighbours);
        let counts = (0..=255)
            .map(|height: usize| match height.checked_sub(1) {
                Some(below) => contained_counts(&labels[height], &labels[below]),
                None => contained_counts(&labels[0], &[]),
            })
            .collect();
        Sections { labels, counts }
    }

    /// The least node above a place and a height is the first fork above.
    fn fork_above(&self, place: usize, height: i32) -> Option<usize> {
        (height as usize + 1..=255)
            .find(|above| self.counts[*above][self.labels[*above][place]] >= 2)
    }
}

/// The nodes of the heights that are numbered already.
struct Nodes {
    heights: Vec<i32>,
    first_places: Vec<usize>,
    /// For each height and label the node that the component goes down to.
    numbers: Vec<Vec<usize>>,
}

impl Nodes {
    /// Numbers the nodes of the next height, by first place.
    fn number(&mut self, sections: &Sections, height: usize) {
        let counts = &sections.counts[height];
        let mut numbers = vec![0; counts.len()];
        let mut last_label = 0;
        for (place, label) in sections.labels[height].iter().copied().enumerate() {
            let first = label > last_label;
            last_label = last_label.max(label);
            if first && counts[label] != 1 {
                numbers[label] = self.heights.len();
                self.heights.push(height as i32);
                self.first_places.push(place);
            } else if counts[label] == 1 && sections.labels[height - 1][place] != 0 {
                numbers[label] = self.numbers[height - 1][sections.labels[height - 1][place]];
            }
        }
        self.numbers.push(numbers);
    }
}

/// The tree, from the labels of all sections.
pub fn tree(picture: &Picture) -> Tree {
    let sections = Sections::new(picture, &all_neighbours(picture));
    let mut nodes = Nodes {
        heights: Vec::new(),
        first_places: Vec::new(),
        numbers: Vec::new(),
    };
    for height in 0..=255 {
        nodes.number(&sections, height);
    }
    let node = |height: usize, place: usize| nodes.numbers[height][sections.labels[height][place]];
    let father = |(first, height): (&usize, &i32)| match sections.fork_above(*first, *height) {
        Some(above) => node(above, *first),
        None => NO_FATHER,
    };
    Tree {
        fathers: nodes
            .first_places
            .iter()
            .zip(&nodes.heights)
            .map(father)
            .collect(),
        map: (0..picture.count())
            .map(|place| node(usize::from(picture.pixels[place]), place))
            .collect(),
        heights: nodes.heights,
        first_places: nodes.first_places,
    }
}

/// The least height at which both places have the same label.
pub fn pass(picture: &Picture, one: usize, other: usize) -> i32 {
    let neighbours = all_neighbours(picture);
    (0..=255)
        .find(|height| {
            let labels = labels_of_section(picture, &neighbours, *height);
            labels[one] != 0 && labels[one] == labels[other]
        })
        .unwrap()
}

/// The pairs of neighbours, lowest first: the height at which a section has
/// both in it, and the two places.
fn neighbour_pairs(picture: &Picture, neighbours: &[Vec<usize>]) -> Vec<(i32, usize, usize)> {
    let mut pairs = Vec::new();
    for (place, others) in neighbours.iter().enumerate() {
        for other in others {
            let height = picture.value(place).max(picture.value(*other));
            pairs.push((height, place, *other));
        }
    }
    pairs.sort();
    pairs
}

/// The deepest place of the part that has this place in it. Each place knows a
/// deeper one of its part, and the deepest knows itself.
fn deepest(deeper: &mut [usize], place: usize) -> usize {
    let mut found = place;
    while deeper[found] != found {
        deeper[found] = deeper[deeper[found]];
        found = deeper[found];
    }
    found
}

/// For each place the height at which it stops being the deepest of its part;
/// for the deepest of all, which never stops, the largest value.
///
/// At first every place is a part, and each step joins two parts or none. After
/// the pairs of a height the parts are the components of that height. Deeper is
/// the place of smaller value, among equals the one that comes first, and
/// patches are numbered by first place. So the deepest place of a component is
/// the first place of its deepest patch.
fn meetings(picture: &Picture, neighbours: &[Vec<usize>]) -> Vec<i32> {
    let mut meetings = vec![picture.largest_value(); picture.count()];
    let mut deeper: Vec<usize> = (0..picture.count()).collect();
    for (height, one, other) in neighbour_pairs(picture, neighbours) {
        let mut ends = [one, other].map(|place| deepest(&mut deeper, place));
        ends.sort_by_key(|place| (picture.value(*place), *place));
        let [kept, lost] = ends;
        if kept != lost {
            deeper[lost] = kept;
            meetings[lost] = height;
        }
    }
    meetings
}

pub fn patches(picture: &Picture) -> Vec<Patch> {
    let neighbours = all_neighbours(picture);
    let meetings = meetings(picture, &neighbours);
    let mut patches = Vec::new();
    for (index, places) in minima(picture, &neighbours).iter().enumerate() {
        let first = places[0];
        let height = picture.value(first);
        patches.push(Patch {
            number: index + 1,
            size: places.len(),
            height,
            depth: meetings[first] - height,
            column_sum: places.iter().map(|place| place % picture.width).sum(),
            row_sum: places.iter().map(|place| place / picture.width).sum(),
        });
    }
    patches
}

pub fn place_query(picture: &Picture, place: usize) -> PlaceAnswer {
    PlaceAnswer {
        value: picture.value(place),
        patch: minima(picture, &all_neighbours(picture))
            .iter()
            .position(|places| places.contains(&place))
            .map(|index| index + 1),
    }
}

/// For each place the number of its patch, nothing for the line.
pub fn patch_numbers(picture: &Picture) -> Vec<Option<usize>> {
    let mut numbers = vec![None; picture.count()];
    let minima = minima(picture, &all_neighbours(picture));
    for (index, places) in minima.iter().enumerate() {
        for place in places {
            numbers[*place] = Some(index + 1);
        }
    }
    numbers
}

/// The lowest number among the patches that a flood from a place meets at the
/// height at which it meets the first one.
///
/// The flood takes the lowest waiting place next, and its height is the largest
/// value taken so far. At each height it takes the component of that height
/// that has the start in it, all of it before it rises. So the height at which
/// it meets a patch is the pass to that patch.
fn first_met(picture: &Picture, numbers: &[Option<usize>], start: usize) -> Option<usize> {
    let mut seen = vec![false; picture.count()];
    seen[start] = true;
    let mut waiting = BTreeSet::from([(picture.value(start), start)]);
    let mut height = picture.value(start);
    let mut lowest: Option<usize> = None;
    while let Some((value, place)) = waiting.pop_first() {
        if value > height && lowest.is_some() {
            break;
        }
        height = height.max(value);
        lowest = lowest.into_iter().chain(numbers[place]).min();
        for neighbour in picture.neighbours(place) {
            if !seen[neighbour] {
                seen[neighbour] = true;
                waiting.insert((picture.value(neighbour), neighbour));
            }
        }
    }
    lowest
}

/// Inside a patch the flood meets that patch first, at the pixel's own value,
/// and no other one at that height.
pub fn touch_query(picture: &Picture, handbook: Handbook, place: usize) -> PlaceAnswer {
    let numbers = patch_numbers(picture);
    PlaceAnswer {
        value: picture.value(place),
        patch: match handbook {
            Handbook::Four => numbers[place],
            Handbook::Five => first_met(picture, &numbers, place),
        },
    }
}
