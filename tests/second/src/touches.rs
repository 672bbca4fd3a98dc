//! Calls that ask which patch a touch belongs to, as test cases.

use crate::calls;
use crate::limits::{self, Cause, Change};
use crate::literal::{Adjacency, Picture};
use crate::question::{exact_call, exact_calls, other_adjacency, Call, Question};
use crate::quick;
use crate::random::Random;
use crate::worked;

const HANDBOOKS: [u32; 2] = [4, 5];

/// Handbooks that are refused; the low 8, 16 or 31 bits of some are not.
const WRONG_HANDBOOKS: [u32; 16] = [
    0,
    1,
    3,
    6,
    7,
    8,
    45,
    256,
    256 + 4,
    256 + 5,
    65_536,
    65_536 + 4,
    65_536 + 5,
    (1 << 31) + 4,
    (1 << 31) + 5,
    u32::MAX,
];

/// A call for each place under each handbook.
fn calls_of_places(picture: &Picture, places: impl Iterator<Item = usize>) -> Vec<Call> {
    let questions = places.flat_map(|place| {
        HANDBOOKS.map(|handbook| Question::Touch {
            handbook,
            place: place as u32,
        })
    });
    exact_calls(picture, questions.collect())
}

fn calls_of_every_place(picture: &Picture) -> Vec<Call> {
    calls_of_places(picture, 0..picture.count())
}

/// Every place of the pictures worked by hand, of those for touches also under
/// the other adjacency and lowered. H1 to H10 are among these.
fn calls_of_worked_pictures() -> Vec<Call> {
    let mut pictures = Vec::new();
    for (given, _, _) in worked::touches() {
        pictures.extend([other_adjacency(&given), quick::watershed(&given), given]);
    }
    pictures.extend(worked::depths().into_iter().map(|(given, _)| given));
    pictures.iter().flat_map(calls_of_every_place).collect()
}

/// Places of the longest climbs: of the corridor, and of the whole picture.
fn calls_of_staircases() -> Vec<Call> {
    let mut calls = Vec::new();
    for (given, _) in worked::staircases() {
        let count = given.count();
        let places = (0..count).filter(|place| given.value(*place) < given.largest_value());
        calls.extend(calls_of_places(&given, places.step_by(11)));
        calls.extend(calls_of_places(&given, (0..count).step_by(211)));
    }
    calls
}

/// The places of a picture that are in no patch.
fn line_places(picture: &Picture) -> Vec<usize> {
    let numbers = quick::patch_numbers(picture);
    (0..picture.count())
        .filter(|place| numbers[*place].is_none())
        .collect()
}

/// A place, most often one on the line, and of those more often a dark one: its
/// part is small, so that its patch is not always the first one.
fn any_place(random: &mut Random, picture: &Picture) -> usize {
    let line = line_places(picture);
    if line.is_empty() || random.below(4) == 0 {
        return random.below(picture.count());
    }
    let some = [0; 3].map(|_| random.one_of(&line));
    let dark = some.into_iter().min_by_key(|place| picture.value(*place));
    random.one_of(&[some[0], dark.unwrap()])
}

/// Calls for so many places, under each handbook.
fn calls_of_some_places(random: &mut Random, picture: &Picture, count: usize) -> Vec<Call> {
    let places: Vec<usize> = (0..count).map(|_| any_place(random, picture)).collect();
    calls_of_places(picture, places.into_iter())
}

/// The largest value of a basin.
const BASIN: usize = 9;

/// Basins parted by upright and level walls of several heights. A basin has few
/// values, and often several patches with equal passes from the places between
/// them.
fn basins(random: &mut Random, sides: (usize, usize)) -> Picture {
    let (width, height) = sides;
    let period = random.between(4, 6);
    let deepest = random.between(BASIN - 5, BASIN - 1);
    let wall = |random: &mut Random| random.between(BASIN + 1, BASIN + 12);
    let upright: Vec<usize> = (0..width).map(|_| wall(random)).collect();
    let level: Vec<usize> = (0..height).map(|_| wall(random)).collect();
    let value = |place: usize| {
        let (row, column) = (place / width, place % width);
        match (row % period == period - 1, column % period == period - 1) {
            (false, false) => random.between(deepest, BASIN),
            (true, false) => level[row],
            (false, true) => upright[column],
            (true, true) => level[row].max(upright[column]),
        }
    };
    let values: Vec<usize> = (0..width * height).map(value).collect();
    Picture {
        width,
        height,
        pixels: values.into_iter().map(|value| value as u8).collect(),
        adjacency: random.one_of(&[Adjacency::Four, Adjacency::Eight]),
    }
}

fn calls_of_basins(random: &mut Random) -> Vec<Call> {
    let mut calls = Vec::new();
    for (width, height) in [
        (8, 5),
        (5, 8),
        (10, 4),
        (12, 12),
        (13, 29),
        (40, 1),
        (1, 40),
    ] {
        let picture = basins(random, (width, height));
        calls.extend(calls_of_some_places(random, &picture, 20));
    }
    for _ in 0..10 {
        let picture = basins(random, (40, 40));
        calls.extend(calls_of_some_places(random, &picture, 20));
    }
    calls
}

/// Places of pictures with many nodes: some of the darkest on the line, whose
/// parts are small, and others.
fn calls_of_many_nodes(random: &mut Random) -> Vec<Call> {
    let mut calls = Vec::new();
    for picture in calls::pictures_of_many_nodes(random) {
        let mut line = line_places(&picture);
        line.sort_by_key(|place| picture.value(*place));
        let dark = line.len() / 20;
        let places: Vec<usize> = (0..12).map(|_| random.one_of(&line[..dark])).collect();
        calls.extend(calls_of_places(&picture, places.into_iter()));
        calls.extend(calls_of_some_places(random, &picture, 12));
    }
    calls
}

/// H10 with its last place touched, under each handbook. The place is on the
/// line.
fn calls_of_h10() -> [Call; 2] {
    let picture = worked::four("0 5 2 / 3 3 3");
    HANDBOOKS.map(|handbook| exact_call(&picture, Question::Touch { handbook, place: 5 }))
}

/// How a cause of a refusal is given to those calls; each has several ways.
/// They are the causes of 14, 7, 3, 8, 9 and 10.
const CAUSES: [Cause<Call>; 6] = [
    [
        |call| call.question.change_handbook(|handbook| handbook + 2),
        |call| call.question.change_handbook(|handbook| handbook + 65_536),
        |call| call.question.change_handbook(|handbook| handbook % 2),
    ],
    [
        |call| call.adjacency = 5,
        |call| call.adjacency = 0,
        |call| call.adjacency = 65_540,
    ],
    [
        |call| call.sides.1 = 41,
        |call| call.sides.0 = 0,
        |call| call.sides.0 = 65_539,
    ],
    [
        |call| call.pixels.push(4),
        |call| call.pixels.truncate(5),
        |call| call.pixels.clear(),
    ],
    [
        |call| call.work_length = 29,
        |call| call.work_length = 0,
        |call| call.work_length = 24,
    ],
    [
        |call| call.question.set_place(0, 6),
        |call| call.question.set_place(0, 65_541),
        |call| call.question.set_place(0, u32::MAX),
    ],
];

fn calls_for_the_order() -> Vec<Call> {
    calls_of_h10()
        .iter()
        .flat_map(|good| limits::calls_for_the_order(good, &CAUSES))
        .collect()
}

/// The places that are touched in turn, at and beyond the limits of six.
const PLACES: [u32; 12] = [0, 1, 2, 3, 4, 5, 6, 7, 256, 65_536, 65_541, u32::MAX];

/// Calls with one argument at a limit each.
fn calls_at_the_limits() -> Vec<Call> {
    let touched: [Change<Call>; 1] = [|call, place| call.question.set_place(0, place)];
    let mut calls = Vec::new();
    for good in calls_of_h10() {
        for (numbers, changes) in calls::LIMITS_OF_ALL {
            calls.extend(limits::changed(&good, numbers, changes));
        }
        calls.extend(limits::changed(&good, &PLACES, &touched));
    }
    calls
}

/// Wrong handbooks with all else right, at a place inside a patch and at one on
/// the line, under both adjacencies.
fn calls_of_wrong_handbooks() -> Vec<Call> {
    let given = worked::four("0 2 1 9 5");
    let mut calls = Vec::new();
    for picture in [other_adjacency(&given), given] {
        for handbook in WRONG_HANDBOOKS {
            let questions = [2, 3].map(|place| Question::Touch { handbook, place });
            calls.extend(exact_calls(&picture, questions.to_vec()));
        }
    }
    calls
}

/// Sides outside the limits, with work memory for all the pixels.
fn calls_of_wrong_sides() -> Vec<Call> {
    let mut calls = Vec::new();
    for (width, height, count) in limits::WRONG_SIDES {
        calls.extend(calls_of_h10().map(|good| Call {
            sides: (width, height),
            pixels: vec![7; count as usize],
            work_length: 5 * count as usize,
            ..good
        }));
    }
    calls
}

/// Every place of some generated pictures.
fn calls_of_small_pictures(random: &mut Random) -> Vec<Call> {
    let mut calls = Vec::new();
    for side in [2, 3, 3, 3, 4, 4, 4, 5, 5, 5, 6, 6, 7] {
        let sides = (side, random.between(side - 1, side + 1));
        let picture = calls::generated_picture(random, sides);
        calls.extend(calls_of_every_place(&picture));
    }
    calls
}

/// Some places of generated pictures of 40 by 40.
fn calls_of_large_pictures(random: &mut Random) -> Vec<Call> {
    let mut calls = Vec::new();
    for _ in 0..30 {
        let picture = calls::generated_picture(random, (40, 40));
        calls.extend(calls_of_some_places(random, &picture, 4));
    }
    calls
}

/// A call under each handbook for a generated picture, sometimes with broken
/// arguments.
fn generated_calls(random: &mut Random) -> Vec<Call> {
    let sides = calls::sides(random);
    let picture = calls::generated_picture(random, sides);
    let place = any_place(random, &picture) as u32;
    let mut call = exact_call(&picture, Question::Touch { handbook: 4, place });
    call.work_length += random.one_of(&[0, 0, 1, 9, 100]);
    for _ in 0..random.one_of(&[0, 0, 0, 0, 1, 2]) {
        calls::break_call(random, &mut call);
    }
    let mut calls = vec![call; HANDBOOKS.len()];
    for (call, handbook) in calls.iter_mut().zip(HANDBOOKS) {
        let wrong = random.one_of(&WRONG_HANDBOOKS);
        let told = if random.below(12) == 0 {
            wrong
        } else {
            handbook
        };
        call.question.change_handbook(|_| told);
    }
    calls
}

/// The calls; `count` under each handbook have broken arguments sometimes.
pub fn calls(count: usize) -> Vec<Call> {
    let mut random = Random::new(40_006);
    let mut calls = calls_of_worked_pictures();
    calls.extend(calls_of_staircases());
    calls.extend(calls_for_the_order());
    calls.extend(calls_at_the_limits());
    calls.extend(calls_of_wrong_handbooks());
    calls.extend(calls_of_wrong_sides());
    calls.extend(calls_of_many_nodes(&mut random));
    calls.extend(calls_of_basins(&mut random));
    calls.extend(calls_of_small_pictures(&mut random));
    calls.extend(calls_of_large_pictures(&mut random));
    calls.extend((0..count).flat_map(|_| generated_calls(&mut random)));
    calls
}

#[cfg(test)]
mod tests {
    use super::*;
    use crate::question::touch_query_of;

    #[test]
    fn worked_lines() {
        let [mut under_four, under_five] = calls_of_h10();
        let line = "touch 4 4 3 2 000502030303 5 30 0 3 0";
        assert_eq!(under_four.line(), line);
        let line = "touch 5 4 3 2 000502030303 5 30 0 3 1";
        assert_eq!(under_five.line(), line);
        under_four.question.change_handbook(|_| u32::MAX);
        let line = "touch 4294967295 4 3 2 000502030303 5 30 14";
        assert_eq!(under_four.line(), line);
    }

    #[test]
    fn sets_of_causes() {
        for good in calls_of_h10() {
            let calls = limits::calls_for_the_order(&good, &CAUSES);
            let numbers: Vec<u32> = calls.iter().map(Call::refusal).collect();
            limits::assert_first_causes(&[14, 7, 3, 8, 9, 10], &numbers);
        }
    }

    #[test]
    fn wrong_handbooks() {
        let calls = calls_of_wrong_handbooks();
        assert_eq!(calls.len(), 4 * WRONG_HANDBOOKS.len());
        assert!(calls.iter().all(|call| call.refusal() == 14));
        for mut call in calls {
            for right in HANDBOOKS {
                call.question.change_handbook(|_| right);
                assert_eq!(call.refusal(), 0);
            }
        }
    }

    /// The patches of the touches on the line under handbook 5.
    fn patches_of_the_line(calls: &[Call]) -> Vec<usize> {
        let mut patches = Vec::new();
        for call in calls.iter().filter(|call| call.refusal() == 0) {
            let picture = call.picture();
            let place = call.question.places()[0] as usize;
            let under_five = call.question.handbook() == Some(5);
            if under_five && quick::patch_numbers(&picture)[place].is_none() {
                patches.extend(touch_query_of(&picture, 5, place).patch);
            }
        }
        patches
    }

    #[test]
    fn touches_on_the_line() {
        let patches = patches_of_the_line(&calls(100));
        let from = |least| patches.iter().filter(|patch| **patch >= least).count();
        assert!(from(1) >= 1000, "{}", from(1));
        assert!(from(2) >= 300, "{}", from(2));
        // Their numbers need more than one byte.
        assert!(from(256) >= 15, "{}", from(256));
    }
}
