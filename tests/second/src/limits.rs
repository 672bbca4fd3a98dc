//! Arguments at the limits and wrong ones, for the calls for C and for the
//! calls on 16-bit memory.

use crate::random::Random;

/// Sides at the limits, and sides whose low 8 or 16 bits are not refused.
pub const SIDES: [u32; 9] = [0, 1, 40, 41, 256, 259, 65_536, 65_539, u32::MAX];

/// Width, height and a number of pixels: sides outside the limits whose product
/// is that number, in full or in its low 32 bits.
pub const WRONG_SIDES: [(u32, u32, u32); 16] = [
    (0, 0, 0),
    (0, 5, 0),
    (5, 0, 0),
    (0, u32::MAX, 0),
    (41, 1, 41),
    (1, 41, 41),
    (41, 40, 1640),
    (40, 41, 1640),
    (41, 41, 1681),
    (1, 1600, 1600),
    (1600, 1, 1600),
    (65_536, 65_536, 0),
    (1 << 31, 2, 0),
    (u32::MAX, u32::MAX, 1),
    (3, 2_863_311_531, 1),
    (2_863_311_531, 3, 1),
];

/// Numbers of pixels and lengths of lists, where 6 are needed, or 2 for a
/// list of patches.
pub const LENGTHS: [u32; 5] = [0, 1, 5, 7, 12];

/// Least sizes, where n is 6, and sizes whose low 8, 16 or 31 bits are not
/// refused.
pub const SIZES: [u32; 18] = [
    0,
    1,
    2,
    5,
    6,
    7,
    12,
    255,
    256,
    257,
    262,
    65_536,
    65_537,
    65_542,
    1 << 31,
    (1 << 31) + 6,
    u32::MAX - 1,
    u32::MAX,
];

/// Sets an argument of a call to a number.
pub type Change<Call> = fn(&mut Call, u32);

/// The call with each of the changes, for each number in turn.
pub fn changed<Call: Clone>(good: &Call, numbers: &[u32], changes: &[Change<Call>]) -> Vec<Call> {
    let mut calls = Vec::new();
    for number in numbers {
        calls.extend(changes.iter().map(|change| {
            let mut call = good.clone();
            change(&mut call, *number);
            call
        }));
    }
    calls
}

/// How many ways there are to give a cause of a refusal to a call.
const WAYS: usize = 3;

/// The ways to give one.
pub type Cause<Call> = [fn(&mut Call); WAYS];

/// Two causes meet in so many ways.
const TURNS: usize = WAYS * WAYS;

/// The causes of a set, by their bits.
fn causes_of(set: usize, count: usize) -> impl Iterator<Item = usize> {
    (0..count).filter(move |cause| set >> cause & 1 == 1)
}

/// Calls for the order of refusals: the call with each set of the causes, in
/// several ways.
pub fn calls_for_the_order<Call: Clone>(good: &Call, causes: &[Cause<Call>]) -> Vec<Call> {
    let mut calls = Vec::new();
    for set in 0..1 << causes.len() {
        for turn in 0..TURNS {
            let mut call = good.clone();
            for cause in causes_of(set, causes.len()) {
                // Neighbouring causes meet in every way.
                let way = if cause % 2 == 0 { turn } else { turn / WAYS };
                causes[cause][way % WAYS](&mut call);
            }
            calls.push(call);
        }
    }
    calls
}

/// Asserts that of the calls for the order each set of causes is answered by
/// its first. A cause is named by its number.
#[cfg(test)]
pub fn assert_first_causes(causes: &[u32], answered: &[u32]) {
    assert_eq!(answered.len(), TURNS << causes.len());
    for (index, number) in answered.iter().enumerate() {
        let first = causes_of(index / TURNS, causes.len()).next();
        let expected = first.map_or(0, |cause| causes[cause]);
        assert_eq!(*number, expected, "call {}", index);
    }
}

pub fn wrong_adjacency(random: &mut Random) -> u32 {
    random.one_of(&[0, 3, 5, 6, 7, 9, 16, 48])
}

pub fn wrong_side(random: &mut Random) -> u32 {
    random.one_of(&[0, 41, 42, 1000, u32::MAX])
}

/// Gives a call another number of pixels.
pub fn break_length(random: &mut Random, pixels: &mut Vec<u8>) {
    let count = pixels.len();
    let length = random.one_of(&[0, count.saturating_sub(1), count + 1, 2 * count]);
    pixels.resize(length, 3);
}

/// A place behind the last one.
pub fn wrong_place(random: &mut Random, count: usize) -> u32 {
    count as u32 + random.one_of(&[0, 1, 7, 100_000])
}

/// A least size that is 0 or above n.
pub fn wrong_size(random: &mut Random, count: usize) -> u32 {
    let above = count as u32 + random.one_of(&[1, 2, 256, 65_536]);
    random.one_of(&[0, above, above, u32::MAX])
}

/// Asserts that in the test cases the number of each name is one of these,
/// and that each occurs at least so many times. `number_field` answers the
/// field of the number, counted from 0.
#[cfg(test)]
pub fn assert_numbers(
    cases: &str,
    number_field: fn(&str) -> usize,
    expected: &[(&str, &[u32])],
    least: usize,
) {
    let mut counts: std::collections::BTreeMap<(&str, u32), usize> = Default::default();
    for line in cases.lines() {
        let fields: Vec<&str> = line.split(' ').collect();
        let number = fields[number_field(fields[0])].parse().unwrap();
        *counts.entry((fields[0], number)).or_insert(0) += 1;
    }
    for (name, numbers) in expected {
        let occurring = counts.keys().filter(|key| key.0 == *name).count();
        assert_eq!(occurring, numbers.len(), "{:?}", counts);
        assert!(
            numbers
                .iter()
                .all(|number| counts[&(*name, *number)] >= least),
            "{:?}",
            counts
        );
    }
}
