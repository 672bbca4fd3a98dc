//! Generated pictures.

use crate::random::Random;

/// A generated picture: sides, largest sample, pixels.
#[derive(Clone)]
pub struct Generated {
    pub kind: &'static str,
    pub width: usize,
    pub height: usize,
    pub largest: usize,
    pub pixels: Vec<u8>,
}

/// What the values of a picture are made for.
struct Frame {
    width: usize,
    height: usize,
    largest: usize,
}

/// Makes values row by row; those above the largest sample are cut to it later.
type Maker = fn(&mut Random, &Frame) -> Vec<usize>;

/// How many kinds of pictures there are.
pub const KIND_COUNT: usize = 11;

const KINDS: [(&str, Maker); KIND_COUNT] = [
    ("noise", noise),
    ("few values", few_values),
    ("plateaus", plateaus),
    ("wall", wall),
    ("comb", comb),
    ("ladder", ladder),
    ("checkerboard", checkerboard),
    ("slopes", slopes),
    ("flat", flat),
    ("scratches", scratches),
    ("cells", cells),
];

/// Sides, most often small.
pub fn sides(random: &mut Random) -> (usize, usize) {
    match random.below(16) {
        0 => (40, 40),
        1 => (1, random.between(1, 40)),
        2 => (random.between(1, 40), 1),
        3 => (40, random.between(1, 40)),
        4 => (random.between(1, 40), 40),
        5..=7 => (random.between(1, 40), random.between(1, 40)),
        8..=11 => (random.between(1, 12), random.between(1, 12)),
        _ => (random.between(1, 5), random.between(1, 5)),
    }
}

/// A generated picture with any sides.
pub fn any_picture(random: &mut Random) -> Generated {
    let sides = sides(random);
    picture(random, sides)
}

/// A generated picture with these sides.
pub fn picture(random: &mut Random, sides: (usize, usize)) -> Generated {
    let (width, height) = sides;
    let largest = random.one_of(&[1, 2, 5, 9, 40, 200, 254, 255, 255, 255]);
    let (kind, make) = random.one_of(&KINDS);
    let frame = Frame {
        width,
        height,
        largest,
    };
    Generated {
        kind,
        width,
        height,
        largest,
        pixels: make(random, &frame)
            .iter()
            .map(|value| (*value).min(largest) as u8)
            .collect(),
    }
}

impl Frame {
    fn count(&self) -> usize {
        self.width * self.height
    }

    /// One value from 0 to the largest.
    fn any_value(&self, random: &mut Random) -> usize {
        random.below(self.largest + 1)
    }

    /// The values that a function of row and column gives, row by row.
    fn values(&self, mut value: impl FnMut(usize, usize) -> usize) -> Vec<usize> {
        (0..self.count())
            .map(|place| value(place / self.width, place % self.width))
            .collect()
    }
}

fn noise(random: &mut Random, frame: &Frame) -> Vec<usize> {
    frame.values(|_, _| frame.any_value(random))
}

fn few_values(random: &mut Random, frame: &Frame) -> Vec<usize> {
    let count = random.between(2, 4);
    let choices: Vec<usize> = (0..count).map(|_| frame.any_value(random)).collect();
    frame.values(|_, _| random.one_of(&choices))
}

fn plateaus(random: &mut Random, frame: &Frame) -> Vec<usize> {
    let mut values = vec![frame.any_value(random); frame.count()];
    for _ in 0..random.between(1, 12) {
        put_plateau(random, frame, &mut values);
    }
    values
}

/// Gives the places of a rectangle one value.
fn put_plateau(random: &mut Random, frame: &Frame, values: &mut [usize]) {
    let plateau = frame.any_value(random);
    let (left, right) = range(random, frame.width);
    let (top, bottom) = range(random, frame.height);
    for row in top..=bottom {
        let start = row * frame.width;
        values[start + left..=start + right].fill(plateau);
    }
}

/// Two ends of a range below a limit.
fn range(random: &mut Random, limit: usize) -> (usize, usize) {
    let one = random.below(limit);
    let other = random.below(limit);
    (one.min(other), one.max(other))
}

/// A pale ground with a little grain, and dark blobs.
fn wall(random: &mut Random, frame: &Frame) -> Vec<usize> {
    let grain = random.below(3);
    let mut values = frame.values(|_, _| frame.largest.saturating_sub(random.below(grain + 1)));
    for _ in 0..random.between(1, 2 + frame.count() / 40) {
        let blob = Blob {
            column: random.below(frame.width),
            row: random.below(frame.height),
            dark: random.below(frame.largest / 2 + 1),
            slope: random.between(1, 30),
            reach: random.between(0, 9),
        };
        blob.darken(&mut values, frame.width);
    }
    values
}

/// A dark round spot: its centre, the value there, how much paler it grows
/// with the square of the distance, and the largest such square.
pub struct Blob {
    pub column: usize,
    pub row: usize,
    pub dark: usize,
    pub slope: usize,
    pub reach: usize,
}

impl Blob {
    /// Lowers the values within reach to those of the blob.
    pub fn darken(&self, values: &mut [usize], width: usize) {
        for (place, value) in values.iter_mut().enumerate() {
            let column_distance = (place % width).abs_diff(self.column);
            let row_distance = (place / width).abs_diff(self.row);
            let square = column_distance * column_distance + row_distance * row_distance;
            if square <= self.reach {
                *value = (*value).min(self.dark + self.slope * square);
            }
        }
    }
}

/// Dark teeth between pale ones, some joined by a dark back.
fn comb(random: &mut Random, frame: &Frame) -> Vec<usize> {
    let dark = frame.any_value(random);
    let pale = random.between(dark, frame.largest);
    let back = random.between(dark, frame.largest);
    let period = random.between(2, 4);
    let upright = random.below(2) == 0;
    frame.values(|row, column| {
        let (along, across) = if upright {
            (row, column)
        } else {
            (column, row)
        };
        if along == 0 {
            back
        } else if across % period == 0 {
            dark + random.below((pale - dark) / 4 + 1)
        } else {
            pale
        }
    })
}

/// Two dark rails, with rungs that differ in height.
fn ladder(random: &mut Random, frame: &Frame) -> Vec<usize> {
    let dark = frame.any_value(random);
    let period = random.between(2, 4);
    let rungs: Vec<usize> = (0..frame.height)
        .map(|_| random.between(dark, frame.largest))
        .collect();
    frame.values(|row, column| {
        let rail = column == 0 || column + 1 == frame.width;
        if rail {
            dark
        } else if row % period == 0 {
            rungs[row]
        } else {
            frame.largest
        }
    })
}

fn checkerboard(random: &mut Random, frame: &Frame) -> Vec<usize> {
    let even = frame.any_value(random);
    let odd = frame.any_value(random);
    let grain = random.below(4);
    frame.values(|row, column| {
        let value = if (row + column) % 2 == 0 { even } else { odd };
        value + random.below(grain + 1)
    })
}

/// Values that rise with the distance from some places.
fn slopes(random: &mut Random, frame: &Frame) -> Vec<usize> {
    let count = random.between(1, 6);
    let places: Vec<(usize, usize)> = (0..count)
        .map(|_| (random.below(frame.width), random.below(frame.height)))
        .collect();
    let slope = random.between(1, 8);
    let start = frame.any_value(random);
    frame.values(|row, column| {
        let nearest = places
            .iter()
            .map(|place| column.abs_diff(place.0) + row.abs_diff(place.1))
            .min()
            .unwrap();
        start + slope * nearest
    })
}

/// One value, but for a few pixels.
fn flat(random: &mut Random, frame: &Frame) -> Vec<usize> {
    let mut values = vec![frame.any_value(random); frame.count()];
    for _ in 0..random.below(4) {
        let place = random.below(frame.count());
        values[place] = frame.any_value(random);
    }
    values
}

/// Rows of holds whose passes rise from hold to hold, or fall, with pale rows
/// between. Some holds are deep; the others are scratches a little below the
/// lower one of their passes.
fn scratches(random: &mut Random, frame: &Frame) -> Vec<usize> {
    let first = random.below(frame.largest / 4 + 1);
    let longest = frame.width.max(frame.height);
    let step = random.between(1, 1 + (frame.largest - first) / longest);
    let holds_for_a_deep_one = random.between(2, 9);
    let upright = random.below(2) == 0;
    let falling = random.below(2) == 0;
    frame.values(|row, column| {
        let (along, across, length) = if upright {
            (row, column, frame.height)
        } else {
            (column, row, frame.width)
        };
        let along = if falling { length - 1 - along } else { along };
        let pass = first + step * along;
        if across % 2 == 1 {
            frame.largest
        } else if along % 2 == 1 {
            pass
        } else if random.below(holds_for_a_deep_one) == 0 {
            random.below(first + 1)
        } else {
            pass.saturating_sub(step + random.between(1, step))
        }
    })
}

/// Holds of one height, or nearly, with passes between them to every side. The
/// passes take all heights above in turn: rising, falling or mixed.
fn cells(random: &mut Random, frame: &Frame) -> Vec<usize> {
    let dark = random.below(frame.largest / 2 + 1);
    let grain = random.one_of(&[0, 0, 0, 1, 3]);
    let mut passes: Vec<usize> = (dark + 1..=frame.largest).collect();
    match random.below(4) {
        0 => {}
        1 => passes.reverse(),
        _ => passes.sort_by_cached_key(|_| random.next()),
    }
    let mut in_turn = passes.into_iter().cycle();
    frame.values(|row, column| match (row % 2, column % 2) {
        (0, 0) => dark + random.below(grain + 1),
        (1, 1) => frame.largest,
        _ => in_turn.next().unwrap(),
    })
}
