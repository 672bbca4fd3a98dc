//! Calls that fill generated pictures, as test cases.

use crate::calls;
use crate::limits;
use crate::literal::{self, Picture};
use crate::question::{exact_call, exact_calls, Call, Question};
use crate::random::Random;

/// The size of the component of a pixel's own height that has the pixel in it,
/// for some pixel.
fn size_of_a_component(random: &mut Random, picture: &Picture) -> usize {
    let place = random.below(picture.count());
    literal::components(picture, picture.value(place))
        .iter()
        .find(|component| component.places.contains(&place))
        .unwrap()
        .places
        .len()
}

/// A least size from 1 to n, most often that of a component or one more.
fn least_size(random: &mut Random, picture: &Picture) -> u32 {
    let count = picture.count();
    let found = size_of_a_component(random, picture);
    let any = random.between(1, count);
    let size = random.one_of(&[found, found, found + 1, found + 1, any, 2, count]);
    size.min(count) as u32
}

fn question(random: &mut Random, picture: &Picture) -> Question {
    Question::Fill {
        size: least_size(random, picture),
        out_length: picture.count() + random.one_of(&[0, 0, 1, 7, 100]),
    }
}

/// A call for each of these sizes, its memory as long as needed.
fn calls_of_sizes(picture: &Picture, sizes: impl Iterator<Item = u32>) -> Vec<Call> {
    let out_length = picture.count();
    let questions = sizes.map(|size| Question::Fill { size, out_length });
    exact_calls(picture, questions.collect())
}

/// Every size of some pictures.
fn calls_of_every_size(random: &mut Random) -> Vec<Call> {
    let mut calls = Vec::new();
    for side in [3, 3, 4, 4, 4, 5, 5, 5, 6, 6, 12, 12] {
        let sides = (side, random.between(side - 1, side + 1));
        let picture = calls::generated_picture(random, sides);
        calls.extend(calls_of_sizes(&picture, 1..=picture.count() as u32));
    }
    calls
}

/// Pictures of 40 by 40, each with several sizes; the first one with those at
/// the limits.
fn calls_of_large_pictures(random: &mut Random) -> Vec<Call> {
    let mut calls = Vec::new();
    for _ in 0..40 {
        let picture = calls::generated_picture(random, (40, 40));
        if calls.is_empty() {
            let limits = [0, 1, 2, 1599, 1600, 1601, 65_537, 67_136, u32::MAX];
            calls.extend(calls_of_sizes(&picture, limits.into_iter()));
        }
        let sizes = [0; 4].map(|_| least_size(random, &picture));
        calls.extend(calls_of_sizes(&picture, sizes.into_iter()));
    }
    calls
}

/// A call for a generated picture, sometimes with broken arguments.
fn generated_call(random: &mut Random) -> Call {
    let sides = calls::sides(random);
    let picture = calls::generated_picture(random, sides);
    let question = question(random, &picture);
    let mut call = exact_call(&picture, question);
    call.work_length += random.one_of(&[0, 0, 1, 9, 100]);
    for _ in 0..random.one_of(&[0, 0, 0, 0, 1, 2]) {
        if random.below(3) == 0 {
            let size = limits::wrong_size(random, call.pixels.len());
            call.question.set_size(size);
        } else {
            calls::break_call(random, &mut call);
        }
    }
    call
}

/// The calls; `count` of them have broken arguments sometimes.
pub fn calls(count: usize) -> Vec<Call> {
    let mut random = Random::new(40_005);
    let mut calls = calls_of_every_size(&mut random);
    calls.extend(calls_of_large_pictures(&mut random));
    calls.extend((0..count).map(|_| generated_call(&mut random)));
    calls
}
