//! Test cases for the calls on 16-bit memory, for saving and for storing rows,
//! one a line, in the form of the module `cases`. Lengths count entries. A
//! 16-bit entry is four hexadecimal digits, highest first. TREE stands for the
//! five fields COUNT HEIGHTS FATHERS FIRSTS MAP.
//!
//!     label ADJACENCY WIDTH HEIGHT PIXELS K OUT-LENGTH WORK-LENGTH NUMBER [COUNT LABELS]
//!     lowerable ADJACENCY WIDTH HEIGHT PIXELS PLACE WORK-LENGTH NUMBER [ANSWER]
//!     tree ADJACENCY WIDTH HEIGHT PIXELS HEIGHTS-LENGTH FATHERS-LENGTH FIRSTS-LENGTH
//!         MAP-LENGTH WORK-LENGTH NUMBER [TREE]
//!     check ADJACENCY WIDTH HEIGHT PIXELS TREE WORK-LENGTH NUMBER
//!     pass ADJACENCY WIDTH HEIGHT PIXELS TREE PLACE PLACE WORK-LENGTH NUMBER [PASS]
//!     watershed ADJACENCY WIDTH HEIGHT PIXELS OUT-LENGTH WORK-LENGTH NUMBER [OUT]
//!     place ADJACENCY WIDTH HEIGHT PIXELS PLACE WORK-LENGTH NUMBER [VALUE PATCH]
//!     touch HANDBOOK ADJACENCY WIDTH HEIGHT PIXELS PLACE WORK-LENGTH NUMBER [VALUE PATCH]
//!     patches ADJACENCY WIDTH HEIGHT PIXELS SIZES-LENGTH HEIGHTS-LENGTH DEPTHS-LENGTH
//!         COLUMNS-LENGTH ROWS-LENGTH WORK-LENGTH NUMBER
//!         [COUNT SIZES HEIGHTS DEPTHS COLUMN-SUMS ROW-SUMS]
//!     fill ADJACENCY WIDTH HEIGHT PIXELS SIZE OUT-LENGTH WORK-LENGTH NUMBER [OUT]
//!     save WIDTH HEIGHT LARGEST PIXELS OUT-LENGTH NUMBER COUNT PLACE [FILE]
//!     store WIDTH HEIGHT PIXELS OUT-LENGTH NUMBER [OUT]
//!     restore WIDTH HEIGHT STORED OUT-LENGTH NUMBER [OUT]
//!
//! Of a saved picture the count is 0 on a refusal, and the place is the first
//! one above the largest sample where the number is 6, else 0.

use crate::fills;
use crate::generate;
use crate::lent::LentTree;
use crate::limits::{self, Change};
use crate::literal::{Adjacency, Picture};
use crate::question::{
    exact_call, exact_calls, other_adjacency, patches_of, tree_of, Call, Question, FIGURES, KINDS,
};
use crate::quick;
use crate::random::Random;
use crate::saves;
use crate::stores;
use crate::touches;
use crate::worked;

/// The pictures worked by hand, each also under the other adjacency and
/// lowered.
fn worked_pictures() -> Vec<Picture> {
    worked::table()
        .into_iter()
        .flat_map(|(_, given, lowered)| [other_adjacency(&given), given, lowered])
        .collect()
}

/// The questions about one place, and about it and each other one.
fn questions_of_place(lent: &LentTree, count: u32, one: u32) -> Vec<Question> {
    let mut questions = vec![
        Question::Lowerable { place: one },
        Question::Place { place: one },
    ];
    questions.extend((0..count).map(|other| Question::Pass {
        lent: lent.clone(),
        places: [one, other],
    }));
    questions
}

/// The patches of a picture into lists that are just long enough, then with
/// each list alone an entry too short, then with each alone an entry longer.
fn questions_of_patches(picture: &Picture) -> Vec<Question> {
    let count = patches_of(picture).len();
    let exact = Question::Patches {
        lengths: [count; FIGURES],
    };
    let mut questions = vec![exact.clone()];
    for length in [count - 1, count + 1] {
        questions.extend((0..FIGURES).map(|which| {
            let mut question = exact.clone();
            question.set_length(which, length);
            question
        }));
    }
    questions
}

/// Every question about a picture, its tree lent right.
fn questions_of_picture(picture: &Picture, lent: LentTree) -> Vec<Question> {
    let out_length = picture.count();
    let count = out_length as u32;
    let mut questions: Vec<Question> = (0..=10)
        .chain([254, 255])
        .map(|height| Question::Label { height, out_length })
        .collect();
    questions.push(Question::Tree {
        lengths: [out_length; 4],
    });
    questions.push(Question::Check { lent: lent.clone() });
    questions.push(Question::Watershed { out_length });
    questions.extend((0..=out_length).map(|length| Question::Patches {
        lengths: [length; FIGURES],
    }));
    questions.extend(questions_of_patches(picture));
    questions.extend((0..=count + 1).map(|size| Question::Fill { size, out_length }));
    questions.extend((0..count).flat_map(|place| questions_of_place(&lent, count, place)));
    questions
}

/// Every question about a picture worked by hand, under both adjacencies.
fn calls_of_worked_pictures() -> Vec<Call> {
    let mut random = Random::new(40_001);
    let mut calls = Vec::new();
    for picture in worked_pictures() {
        let lengths = [picture.count(); 4];
        let lent = LentTree::new(&tree_of(&picture)).lengthen(&mut random, lengths);
        let questions = questions_of_picture(&picture, lent);
        calls.extend(exact_calls(&picture, questions));
    }
    calls
}

/// The patches of the pictures worked by hand for depths, each also under the
/// other adjacency and lowered.
fn calls_of_depths() -> Vec<Call> {
    let mut calls = Vec::new();
    for (given, _) in worked::depths().into_iter().chain(worked::staircases()) {
        for picture in [other_adjacency(&given), quick::watershed(&given), given] {
            calls.extend(exact_calls(&picture, questions_of_patches(&picture)));
        }
    }
    calls
}

/// Checks of the trees of the pictures worked by hand, with the count or one
/// entry changed: each entry in turn, also those beyond the node count.
fn checks_of_damaged_trees() -> Vec<Call> {
    let mut random = Random::new(40_004);
    let mut calls = Vec::new();
    for picture in worked_pictures() {
        let lengths = [picture.count() + 1; 4];
        let right = LentTree::new(&tree_of(&picture)).lengthen(&mut random, lengths);
        let changes = right.changes().into_iter();
        let questions = changes.map(|lent| Question::Check { lent }).collect();
        calls.extend(exact_calls(&picture, questions));
    }
    calls
}

/// A picture of 40 by 40 with many nodes: dark and pale pixels by turns.
fn picture_of_many_nodes(random: &mut Random, pale_values: usize, adjacency: Adjacency) -> Picture {
    Picture {
        width: 40,
        height: 40,
        pixels: (0..1600)
            .map(|place| match (place / 40 + place) % 2 {
                0 => random.below(10) as u8,
                _ => 10 + random.below(pale_values) as u8,
            })
            .collect(),
        adjacency,
    }
}

pub fn pictures_of_many_nodes(random: &mut Random) -> Vec<Picture> {
    let mut pictures = Vec::new();
    for pale_values in [1, 4, 246] {
        pictures.push(picture_of_many_nodes(random, pale_values, Adjacency::Four));
        pictures.push(picture_of_many_nodes(random, pale_values, Adjacency::Eight));
    }
    pictures
}

/// H10, of 6 pixels and 2 patches, for each kind of call but touching, with no
/// cause of refusal.
fn calls_of_h10() -> Vec<Call> {
    let picture = worked::four("0 5 2 / 3 3 3");
    let lent = LentTree::new(&tree_of(&picture)).lengthen(&mut Random::new(40_002), [6; 4]);
    let questions = vec![
        Question::Label {
            height: 3,
            out_length: 6,
        },
        Question::Lowerable { place: 5 },
        Question::Tree { lengths: [6; 4] },
        Question::Check { lent: lent.clone() },
        Question::Pass {
            lent,
            places: [0, 5],
        },
        Question::Watershed { out_length: 6 },
        Question::Place { place: 5 },
        Question::Patches {
            lengths: [2; FIGURES],
        },
        Question::Fill {
            size: 2,
            out_length: 6,
        },
    ];
    exact_calls(&picture, questions)
}

/// Gives a call a set of the causes 7, 3, 8, 9 by a list, 9 by the work
/// memory, 10 and 11. Filling has 13 instead of the last two: a size of 0
/// instead of 10, and one above n instead of 11 alone.
fn give_causes(call: &mut Call, set: usize) {
    let has = |cause: usize| set >> cause & 1 == 1;
    if has(0) {
        call.adjacency = 5;
    }
    if has(1) {
        call.sides.1 = 41;
    }
    if has(2) {
        call.pixels.push(4);
    }
    // The damage first: a shortened list loses its last entry only.
    if let (true, Some(lent)) = (has(6), call.question.lent_mut()) {
        lent.map[0] ^= 1;
    }
    if has(3) {
        let too_short = match call.question {
            Question::Patches { .. } => 1,
            _ => 5,
        };
        call.question.set_length(set % FIGURES, too_short);
    }
    if has(4) {
        call.work_length = 29;
    }
    if has(5) {
        call.question.set_place(set % 2, 6);
    }
    if has(5) || has(6) {
        call.question.set_size(if has(5) { 0 } else { 7 });
    }
}

/// Calls for the order of refusals: one for each set of causes and each of
/// these kinds of calls.
fn calls_for_the_order() -> Vec<Call> {
    let mut calls = Vec::new();
    for set in 0..128 {
        let mut of_set = calls_of_h10();
        of_set.iter_mut().for_each(|call| give_causes(call, set));
        calls.extend(of_set);
    }
    calls
}

/// The numbers that an argument of every call takes in turn, and how it takes
/// one.
pub const LIMITS_OF_ALL: [(&[u32], &[Change<Call>]); 4] = [
    (
        &[0, 3, 4, 5, 7, 8, 9, 260, 264, 65_540, u32::MAX],
        &[|call, adjacency| call.adjacency = adjacency],
    ),
    (
        &limits::SIDES,
        &[
            |call, side| call.sides.0 = side,
            |call, side| call.sides.1 = side,
            |call, side| call.sides = (side, side),
        ],
    ),
    (
        &limits::LENGTHS,
        &[|call, length| call.pixels.resize(length as usize, 1)],
    ),
    (
        &[0, 1, 6, 24, 29, 30, 31, 60],
        &[|call, length| call.work_length = length as usize],
    ),
];

/// The same of arguments that some calls have.
const LIMITS: [(&[u32], &[Change<Call>]); 3] = [
    (
        &limits::LENGTHS,
        &[
            |call, length| call.question.set_length(0, length as usize),
            |call, length| call.question.set_length(1, length as usize),
            |call, length| call.question.set_length(2, length as usize),
            |call, length| call.question.set_length(3, length as usize),
            |call, length| call.question.set_length(4, length as usize),
        ],
    ),
    (
        &[0, 1, 5, 6, 7, 256, 65_536, 65_541, u32::MAX],
        &[
            |call, place| call.question.set_place(0, place),
            |call, place| call.question.set_place(1, place),
        ],
    ),
    (&limits::SIZES, &[|call, size| call.question.set_size(size)]),
];

/// Calls with one argument at a limit each.
fn calls_at_the_limits() -> Vec<Call> {
    let mut calls = Vec::new();
    for good in calls_of_h10() {
        for (numbers, changes) in LIMITS_OF_ALL.iter().chain(&LIMITS) {
            calls.extend(limits::changed(&good, numbers, changes));
        }
    }
    calls
}

/// Sides, most often so small that the literal functions are quick.
pub fn sides(random: &mut Random) -> (usize, usize) {
    match random.below(16) {
        0 => (40, 40),
        1..=4 => generate::sides(random),
        _ => (random.between(1, 6), random.between(1, 6)),
    }
}

/// The picture whose tree is lent: most often the picture itself.
fn source(random: &mut Random, picture: &Picture) -> Picture {
    let mut other = picture.clone();
    match random.below(10) {
        0 => other_adjacency(picture),
        1 => quick::watershed(picture),
        2 => {
            let place = random.below(picture.count());
            other.pixels[place] = random.below(256) as u8;
            other
        }
        _ => other,
    }
}

/// A lent tree with some entries more than needed, and often one entry
/// or the count changed.
fn lent_tree(random: &mut Random, picture: &Picture) -> LentTree {
    let count = picture.count();
    let tree = tree_of(&source(random, picture));
    let lengths = [0; 4].map(|_| count + random.one_of(&[0, 0, 1, 5]));
    let mut lent = LentTree::new(&tree).lengthen(random, lengths);
    if random.below(3) > 0 {
        lent.damage(random, count);
    }
    lent
}

fn question(random: &mut Random, kind: &str, picture: &Picture) -> Question {
    let count = picture.count();
    let place = random.below(count) as u32;
    match kind {
        "label" => {
            let value = usize::from(picture.pixels[place as usize]);
            let other = random.below(256);
            Question::Label {
                height: random.one_of(&[value, value, value.saturating_sub(1), other, 0, 255])
                    as u8,
                out_length: count + random.one_of(&[0, 0, 1, 7, 100]),
            }
        }
        "lowerable" => Question::Lowerable { place },
        "tree" => Question::Tree {
            lengths: [0; 4].map(|_| count + random.one_of(&[0, 0, 1, 7, 100])),
        },
        "check" => Question::Check {
            lent: lent_tree(random, picture),
        },
        "pass" => {
            let lent = if random.below(4) > 0 {
                LentTree::new(&tree_of(picture)).lengthen(random, [count + 3; 4])
            } else {
                lent_tree(random, picture)
            };
            let places = [place, random.below(count) as u32];
            Question::Pass { lent, places }
        }
        "watershed" => Question::Watershed {
            out_length: count + random.one_of(&[0, 0, 1, 7, 100]),
        },
        "place" => Question::Place { place },
        _ => {
            let patches = patches_of(picture).len();
            Question::Patches {
                lengths: [0; FIGURES].map(|_| patches + random.one_of(&[0, 0, 1, 7, 100])),
            }
        }
    }
}

/// Breaks one of the arguments.
pub fn break_call(random: &mut Random, call: &mut Call) {
    let count = call.pixels.len();
    match random.below(5) {
        0 => call.adjacency = limits::wrong_adjacency(random),
        1 => {
            let side = limits::wrong_side(random);
            call.sides = random.one_of(&[(side, call.sides.1), (call.sides.0, side)]);
        }
        2 => limits::break_length(random, &mut call.pixels),
        3 => {
            if random.below(2) == 0 {
                call.question
                    .set_length(random.below(FIGURES), random.below(count + 1));
            } else {
                call.work_length = random.below(5 * count + 1);
            }
        }
        _ => {
            let place = limits::wrong_place(random, count);
            call.question.set_place(random.below(2), place);
        }
    }
}

/// Three calls of each kind for a picture, their memory as long as needed.
fn three_calls_of_each_kind(random: &mut Random, picture: &Picture) -> Vec<Call> {
    let kinds = KINDS.repeat(3);
    let questions = kinds.iter().map(|kind| question(random, kind, picture));
    exact_calls(picture, questions.collect())
}

/// A generated picture with these sides, under one of the adjacencies.
pub fn generated_picture(random: &mut Random, sides: (usize, usize)) -> Picture {
    Picture {
        width: sides.0,
        height: sides.1,
        pixels: generate::picture(random, sides).pixels,
        adjacency: random.one_of(&[Adjacency::Four, Adjacency::Eight]),
    }
}

/// A call for a generated picture, sometimes with broken arguments.
fn generated_call(random: &mut Random, kind: &str) -> Call {
    let sides = sides(random);
    let picture = generated_picture(random, sides);
    let question = question(random, kind, &picture);
    let mut call = exact_call(&picture, question);
    call.work_length += random.one_of(&[0, 0, 1, 9, 100]);
    for _ in 0..random.one_of(&[0, 0, 0, 0, 1, 2]) {
        break_call(random, &mut call);
    }
    call
}

/// All cases, as lines; at least `count` of each kind are of generated
/// pictures.
pub fn text(count: usize) -> String {
    let mut calls = calls_of_worked_pictures();
    calls.extend(calls_of_depths());
    calls.extend(calls_for_the_order());
    calls.extend(calls_at_the_limits());
    calls.extend(checks_of_damaged_trees());
    let mut random = Random::new(40_003);
    for picture in pictures_of_many_nodes(&mut random) {
        calls.extend(three_calls_of_each_kind(&mut random, &picture));
        calls.extend(exact_calls(&picture, questions_of_patches(&picture)));
    }
    for _ in 0..count {
        calls.extend(KINDS.map(|kind| generated_call(&mut random, kind)));
    }
    calls.extend(fills::calls(count));
    calls.extend(touches::calls(count));
    let mut lines: Vec<String> = calls.iter().map(Call::line).collect();
    lines.extend(saves::lines(count));
    lines.extend(stores::lines(count));
    lines.join("\n") + "\n"
}

#[cfg(test)]
mod tests {
    use super::*;

    fn number_field(kind: &str) -> usize {
        match kind {
            "label" | "fill" | "touch" => 8,
            "lowerable" | "watershed" | "place" => 7,
            "save" => 6,
            "store" | "restore" => 5,
            "tree" => 10,
            "check" | "patches" => 11,
            _ => 13,
        }
    }

    #[test]
    fn every_number_occurs() {
        let expected: [(&str, &[u32]); 13] = [
            ("label", &[0, 3, 7, 8, 9]),
            ("lowerable", &[0, 3, 7, 8, 9, 10]),
            ("tree", &[0, 3, 7, 8, 9]),
            ("check", &[0, 3, 7, 8, 9, 11]),
            ("pass", &[0, 3, 7, 8, 9, 10, 11]),
            ("watershed", &[0, 3, 7, 8, 9]),
            ("place", &[0, 3, 7, 8, 9, 10]),
            ("touch", &[0, 3, 7, 8, 9, 10, 14]),
            ("patches", &[0, 3, 7, 8, 9]),
            ("fill", &[0, 3, 7, 8, 9, 13]),
            ("save", &[0, 3, 4, 6, 8, 9]),
            ("store", &[0, 3, 8, 9]),
            ("restore", &[0, 3, 8, 9]),
        ];
        limits::assert_numbers(&text(100), number_field, &expected, 2);
    }
}
