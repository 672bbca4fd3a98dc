//! Calls that store the rows of pictures and restore them, as test cases in the
//! form that the module `calls` gives.

use crate::generate;
use crate::hexadecimal;
use crate::limits::{self, Cause, Change};
use crate::random::Random;
use crate::storing::{self, Direction, RowsCall, DIRECTIONS};
use crate::wall;
use crate::worked;

/// The case of a call.
fn line(call: &RowsCall) -> String {
    let name = match call.direction {
        Direction::Store => "store",
        Direction::Restore => "restore",
    };
    let start = format!(
        "{} {} {} {} {}",
        name,
        call.sides.0,
        call.sides.1,
        hexadecimal(&call.bytes),
        call.out_length
    );
    match call.refusal() {
        0 => format!("{} 0 {}", start, hexadecimal(&call.output())),
        number => format!("{} {}", start, number),
    }
}

fn noise(random: &mut Random, count: usize) -> Vec<u8> {
    (0..count).map(|_| random.below(256) as u8).collect()
}

/// Storing a picture, restoring it, and restoring the picture whose stored form
/// has its pixels.
fn calls_of(sides: (u32, u32), pixels: &[u8]) -> [RowsCall; 3] {
    let form = storing::stored(sides.0 as usize, pixels);
    [
        RowsCall::exact(Direction::Store, sides, pixels.to_vec()),
        RowsCall::exact(Direction::Restore, sides, form),
        RowsCall::exact(Direction::Restore, sides, pixels.to_vec()),
    ]
}

fn calls_of_worked_pictures() -> Vec<RowsCall> {
    worked::table()
        .into_iter()
        .flat_map(|(_, given, lowered)| [given, lowered])
        .flat_map(|picture| {
            let sides = (picture.width as u32, picture.height as u32);
            calls_of(sides, &picture.pixels)
        })
        .collect()
}

/// Values that rise by a step with every column and by another with every row,
/// modulo 256.
struct Ramp {
    start: u32,
    right: u32,
    down: u32,
}

const fn ramp(start: u32, right: u32, down: u32) -> Ramp {
    Ramp { start, right, down }
}

/// Pictures of one value first, which rise by nothing; a step of 255 is a fall
/// by 1. The last one has every byte, if its sides are 16.
const RAMPS: [Ramp; 13] = [
    ramp(0, 0, 0),
    ramp(1, 0, 0),
    ramp(128, 0, 0),
    ramp(255, 0, 0),
    ramp(0, 1, 0),
    ramp(0, 0, 1),
    ramp(250, 1, 1),
    ramp(5, 255, 0),
    ramp(5, 0, 255),
    ramp(200, 127, 3),
    ramp(1, 128, 64),
    ramp(77, 129, 254),
    ramp(0, 1, 16),
];

impl Ramp {
    fn pixels(&self, sides: (u32, u32)) -> Vec<u8> {
        let (width, height) = sides;
        (0..width * height)
            .map(|place| self.start + self.right * (place % width) + self.down * (place / width))
            .map(|value| (value % 256) as u8)
            .collect()
    }
}

fn calls_of_ramps() -> Vec<RowsCall> {
    let mut calls = Vec::new();
    for sides in [(7, 5), (16, 16), (39, 40)] {
        calls.extend(
            RAMPS
                .iter()
                .flat_map(|ramp| calls_of(sides, &ramp.pixels(sides))),
        );
    }
    calls
}

/// The example wall.
fn calls_of_the_wall() -> Vec<RowsCall> {
    let sides = (wall::SIDE as u32, wall::SIDE as u32);
    let values = wall::values();
    let pixels: Vec<u8> = values.iter().map(|value| *value as u8).collect();
    calls_of(sides, &pixels).to_vec()
}

/// The pixels of 40 by 40, two by two.
const PAIRS_OF_A_PICTURE: usize = 800;

/// Every two bytes stand side by side in one of these pictures, in order; the
/// last picture begins anew.
fn calls_of_neighbours() -> Vec<RowsCall> {
    let pairs: Vec<[u8; 2]> = (0..=255)
        .flat_map(|left| (0..=255).map(move |right| [left, right]))
        .collect();
    let pictures = pairs.len().div_ceil(PAIRS_OF_A_PICTURE);
    let mut pairs = pairs.iter().cycle();
    let mut calls = Vec::new();
    for _ in 0..pictures {
        let of_picture = pairs.by_ref().take(PAIRS_OF_A_PICTURE);
        let pixels: Vec<u8> = of_picture.flatten().copied().collect();
        let [store, restore, _] = calls_of((40, 40), &pixels);
        calls.extend([store, restore]);
    }
    calls
}

/// Noise with every two sides, in both directions.
fn calls_of_every_two_sides(random: &mut Random) -> Vec<RowsCall> {
    let mut calls = Vec::new();
    for width in 1..=40 {
        for height in 1..=40 {
            calls.extend(DIRECTIONS.map(|direction| {
                let bytes = noise(random, (width * height) as usize);
                RowsCall::exact(direction, (width, height), bytes)
            }));
        }
    }
    calls
}

/// Numbers of bytes around n, each with output of several lengths, none to more
/// than enough.
fn calls_of_lengths(random: &mut Random) -> Vec<RowsCall> {
    let mut calls = Vec::new();
    for sides in [(1, 1), (2, 1), (1, 2), (3, 3), (40, 1), (1, 40), (40, 40)] {
        let count = (sides.0 * sides.1) as usize;
        for length in [0, count - 1, count, count + 1] {
            for out_length in [0, count - 1, count, count + 1, count + 256, 16_384] {
                calls.extend(DIRECTIONS.map(|direction| RowsCall {
                    direction,
                    sides,
                    bytes: noise(random, length),
                    out_length,
                }));
            }
        }
    }
    calls
}

/// Fit calls for the order of refusals and for the limits: H10, of 6 pixels,
/// and its pixels as a stored form.
fn calls_of_h10() -> [RowsCall; 2] {
    DIRECTIONS.map(|direction| RowsCall::exact(direction, (3, 2), vec![0, 5, 2, 3, 3, 3]))
}

/// How a cause of a refusal is given to those calls; each has several ways.
const CAUSES: [Cause<RowsCall>; 4] = [
    [
        |call| call.sides.0 = 0,
        |call| call.sides.0 = 41,
        |call| call.sides.0 = u32::MAX,
    ],
    [
        |call| call.sides.1 = 0,
        |call| call.sides.1 = 41,
        |call| call.sides.1 = 65_538,
    ],
    [
        |call| call.bytes.truncate(5),
        |call| call.bytes.push(3),
        |call| call.bytes.clear(),
    ],
    [
        |call| call.out_length = 5,
        |call| call.out_length = 0,
        |call| call.out_length = 3,
    ],
];

fn calls_for_the_order() -> Vec<RowsCall> {
    calls_of_h10()
        .iter()
        .flat_map(|good| limits::calls_for_the_order(good, &CAUSES))
        .collect()
}

const SIDE_CHANGES: [Change<RowsCall>; 4] = [
    |call, side| call.sides.0 = side,
    |call, side| call.sides.1 = side,
    |call, side| call.sides = (side, side),
    |call, side| {
        call.sides = (side, side);
        call.bytes.clear();
    },
];

/// Sides where a picture of one pixel is fit, and sides whose low 8 or 16 bits
/// are not refused.
const SIDES_FOR_ONE_PIXEL: [u32; 8] = [0, 1, 40, 41, 257, 65_537, (1 << 31) + 1, u32::MAX];

/// The numbers that an argument takes in turn, and how it takes one.
const LIMITS: [(&[u32], &[Change<RowsCall>]); 3] = [
    (&limits::SIDES, &SIDE_CHANGES),
    // The low 8 bits of the last one are 6.
    (
        &[0, 1, 2, 3, 5, 6, 7, 12, 262],
        &[|call, length| call.bytes.resize(length as usize, 1)],
    ),
    (
        &[0, 1, 2, 3, 5, 6, 7, 12, 256, 262, 1600, 16_384],
        &[|call, length| call.out_length = length as usize],
    ),
];

/// Calls with one argument at a limit each.
fn calls_at_the_limits() -> Vec<RowsCall> {
    let mut calls = Vec::new();
    for good in calls_of_h10() {
        for (numbers, changes) in LIMITS {
            calls.extend(limits::changed(&good, numbers, changes));
        }
        let one_pixel = RowsCall::exact(good.direction, (1, 1), vec![200]);
        calls.extend(limits::changed(
            &one_pixel,
            &SIDES_FOR_ONE_PIXEL,
            &SIDE_CHANGES,
        ));
    }
    calls
}

/// Sides outside the limits, with output for all the bytes.
fn calls_of_wrong_sides(random: &mut Random) -> Vec<RowsCall> {
    let mut calls = Vec::new();
    for (width, height, count) in limits::WRONG_SIDES {
        calls.extend(DIRECTIONS.map(|direction| {
            let bytes = noise(random, count as usize);
            RowsCall::exact(direction, (width, height), bytes)
        }));
    }
    calls
}

/// Breaks one of the arguments.
fn break_call(random: &mut Random, call: &mut RowsCall) {
    match random.below(4) {
        0 => call.sides.0 = limits::wrong_side(random),
        1 => call.sides.1 = limits::wrong_side(random),
        2 => limits::break_length(random, &mut call.bytes),
        _ => call.out_length = random.below(call.bytes.len() + 1),
    }
}

/// Calls for a generated picture, often with broken arguments.
fn generated_calls(random: &mut Random) -> [RowsCall; 2] {
    let picture = generate::any_picture(random);
    let sides = (picture.width as u32, picture.height as u32);
    let [store, restore, other_restore] = calls_of(sides, &picture.pixels);
    let mut calls = [store, random.one_of(&[restore, other_restore])];
    for call in &mut calls {
        call.out_length += random.one_of(&[0, 0, 1, 7, 100]);
        for _ in 0..random.one_of(&[0, 0, 0, 1, 2, 3]) {
            break_call(random, call);
        }
    }
    calls
}

/// All cases, as lines; `count` of each direction are of generated pictures.
pub fn lines(count: usize) -> Vec<String> {
    let mut random = Random::new(70_002);
    let mut calls = calls_of_worked_pictures();
    calls.extend(calls_of_ramps());
    calls.extend(calls_of_the_wall());
    calls.extend(calls_of_neighbours());
    calls.extend(calls_of_every_two_sides(&mut random));
    calls.extend(calls_of_lengths(&mut random));
    calls.extend(calls_for_the_order());
    calls.extend(calls_at_the_limits());
    calls.extend(calls_of_wrong_sides(&mut random));
    calls.extend((0..count).flat_map(|_| generated_calls(&mut random)));
    calls.iter().map(line).collect()
}

#[cfg(test)]
mod tests {
    use super::*;
    use std::collections::BTreeSet;

    #[test]
    fn worked_lines() {
        let pixels = worked::four("3 1 / 4 0 / 2 2").pixels;
        let [mut store, restore, _] = calls_of((2, 3), &pixels);
        assert_eq!(line(&store), "store 2 3 030104000202 6 0 03fe020004fc");
        assert_eq!(line(&restore), "restore 2 3 03fe020004fc 6 0 030104000202");
        store.out_length = 5;
        assert_eq!(line(&store), "store 2 3 030104000202 5 9");
        store.bytes.clear();
        assert_eq!(line(&store), "store 2 3 - 5 8");
        store.sides.1 = u32::MAX;
        assert_eq!(line(&store), "store 2 4294967295 - 5 3");
    }

    #[test]
    fn sets_of_causes() {
        for good in calls_of_h10() {
            let calls = limits::calls_for_the_order(&good, &CAUSES);
            let numbers: Vec<u32> = calls.iter().map(RowsCall::refusal).collect();
            limits::assert_first_causes(&[3, 3, 8, 9], &numbers);
        }
    }

    /// The calls of one direction, which must be unrefused.
    fn accepted(calls: Vec<RowsCall>, direction: Direction) -> Vec<RowsCall> {
        assert!(calls.iter().all(|call| call.refusal() == 0));
        let calls = calls.into_iter();
        calls.filter(|call| call.direction == direction).collect()
    }

    #[test]
    fn every_two_sides_occur() {
        for direction in DIRECTIONS {
            let calls = accepted(calls_of_every_two_sides(&mut Random::new(1)), direction);
            let sides: BTreeSet<(u32, u32)> = calls.iter().map(|call| call.sides).collect();
            assert_eq!((calls.len(), sides.len()), (1600, 1600));
        }
    }

    /// In what is stored and in what is restored.
    #[test]
    fn every_two_neighbours_occur() {
        for direction in DIRECTIONS {
            let calls = accepted(calls_of_neighbours(), direction);
            let pictures: Vec<Vec<u8>> = match direction {
                Direction::Store => calls.into_iter().map(|call| call.bytes).collect(),
                Direction::Restore => calls.iter().map(RowsCall::output).collect(),
            };
            let rows = pictures.iter().flat_map(|pixels| pixels.chunks(40));
            let pairs: BTreeSet<&[u8]> = rows.flat_map(|row| row.windows(2)).collect();
            assert_eq!(pairs.len(), 256 * 256);
        }
    }
}
