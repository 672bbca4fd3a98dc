//! Pictures worked by hand: H1 to H10, some for the depths of patches, some for
//! touches, and some for centres.

use crate::literal::{Adjacency, Picture};

/// A picture from its rows, parted by slashes.
fn picture(rows: &str, adjacency: Adjacency) -> Picture {
    let rows: Vec<Vec<u8>> = rows
        .split('/')
        .map(|row| {
            row.split_whitespace()
                .map(|word| word.parse().unwrap())
                .collect()
        })
        .collect();
    Picture {
        width: rows[0].len(),
        height: rows.len(),
        pixels: rows.concat(),
        adjacency,
    }
}

pub fn four(rows: &str) -> Picture {
    picture(rows, Adjacency::Four)
}

pub fn eight(rows: &str) -> Picture {
    picture(rows, Adjacency::Eight)
}

/// A picture as a P5 file with the largest sample 255.
pub fn file_of(picture: &Picture) -> Vec<u8> {
    let header = format!("P5\n{} {}\n255\n", picture.width, picture.height);
    [header.as_bytes(), &picture.pixels].concat()
}

/// Mark, picture, watershed.
pub fn table() -> Vec<(&'static str, Picture, Picture)> {
    vec![
        ("H1", four("9"), four("9")),
        ("H2", four("0 1"), four("0 0")),
        ("H3", four("3 1 4 0 2"), four("1 1 4 0 0")),
        ("H4", four("0 5 / 5 0"), four("0 5 / 5 0")),
        ("H5", eight("0 5 / 5 0"), eight("0 0 / 0 0")),
        (
            "H6",
            four("7 7 7 / 7 7 7 / 7 7 7"),
            four("7 7 7 / 7 7 7 / 7 7 7"),
        ),
        (
            "H7",
            four("0 0 0 / 0 5 0 / 0 0 0"),
            four("0 0 0 / 0 0 0 / 0 0 0"),
        ),
        ("H8", four("0 3 3 3 1"), four("0 0 0 3 1")),
        ("H9", four("0 3 3 1"), four("0 0 3 1")),
        ("H10", four("0 5 2 / 3 3 3"), four("0 3 2 / 0 0 3")),
    ]
}

/// Small pictures and the depths of their patches.
pub fn depths() -> Vec<(Picture, Vec<i32>)> {
    vec![
        // The row of the request, and its holds in other orders.
        (four("0 2 1 9 5"), vec![9, 1, 4]),
        (four("5 9 1 2 0"), vec![4, 1, 9]),
        (four("5 9 0 2 1"), vec![4, 9, 1]),
        // Of equal ones the first is the deepest, and takes the largest value.
        (four("3 0 5 0 4"), vec![5, 5]),
        (four("9 0 5 0 4"), vec![9, 5]),
        (four("4 0 5 0 9"), vec![9, 5]),
        (four("9 0 9 / 0 5 9"), vec![9, 5]),
        (four("2 5 2 7 2 9"), vec![7, 3, 5]),
        (four("2 7 2 5 2 9"), vec![7, 5, 3]),
        (four("0 2 0 5 0 3 0 9"), vec![9, 2, 5, 3]),
        (four("1 2 1 5 0 3 0 9"), vec![4, 1, 9, 3]),
        // The lowest pass is not one to a deeper patch, or leads to one that is
        // neither the deepest nor the next.
        (four("5 7 6 9 0"), vec![4, 1, 9]),
        (four("0 9 5 7 1"), vec![9, 2, 8]),
        (four("3 9 0 / 4 9 9 / 4 4 1"), vec![1, 9, 8]),
        // The lowest pass leads to a lower patch, and to one of the same height.
        (four("2 2 1 3 1 / 2 1 3 0 2"), vec![2, 1, 1, 3]),
        // The first patch has forks at 3 and 5 below the end of its climb.
        (four("1 3 2 5 4 8 0 9"), vec![7, 1, 1, 9]),
        // Three parts meet at one height.
        (four("1 5 0 5 2 6"), vec![4, 6, 3]),
        (four("0 9 1 / 9 5 9 / 2 9 3"), vec![9, 8, 4, 7, 6]),
        (eight("0 9 1 / 9 5 9 / 2 9 3"), vec![9, 4, 3, 2]),
        // The largest depths, and a lone patch.
        (four("0 255 0"), vec![255, 255]),
        (four("254 255 0"), vec![1, 255]),
        (four("9 3 5"), vec![6]),
        (eight("7 7 / 7 7"), vec![0]),
    ]
}

/// A picture, and the patch that a touch at each place belongs to under
/// handbook 4 and under handbook 5, 0 for none.
pub type Touched = (Picture, Vec<usize>, Vec<usize>);

/// The two lists of patches are rows like the picture.
fn touched(picture: Picture, under_four: &str, under_five: &str) -> Touched {
    let patches = |rows: &str| -> Vec<usize> {
        let words = rows.split_whitespace().filter(|word| *word != "/");
        words.map(|word| word.parse().unwrap()).collect()
    };
    (picture, patches(under_four), patches(under_five))
}

/// H1 to H10, some of their watersheds, and a row like H3 with a lower pass.
fn touched_table() -> Vec<Touched> {
    vec![
        touched(four("9"), "1", "1"),
        touched(four("0 1"), "1 0", "1 1"),
        touched(four("3 1 4 0 2"), "0 1 0 2 0", "1 1 1 2 2"),
        touched(four("1 1 4 0 0"), "1 1 0 2 2", "1 1 1 2 2"),
        touched(four("3 1 2 0 0"), "0 1 0 2 2", "1 1 1 2 2"),
        touched(four("0 5 / 5 0"), "1 0 / 0 2", "1 1 / 1 2"),
        touched(eight("0 5 / 5 0"), "1 0 / 0 1", "1 1 / 1 1"),
        touched(
            four("7 7 7 / 7 7 7 / 7 7 7"),
            "1 1 1 / 1 1 1 / 1 1 1",
            "1 1 1 / 1 1 1 / 1 1 1",
        ),
        touched(
            four("0 0 0 / 0 5 0 / 0 0 0"),
            "1 1 1 / 1 0 1 / 1 1 1",
            "1 1 1 / 1 1 1 / 1 1 1",
        ),
        touched(four("0 3 3 3 1"), "1 0 0 0 2", "1 1 1 1 2"),
        touched(four("0 0 0 3 1"), "1 1 1 0 2", "1 1 1 1 2"),
        touched(four("0 3 3 1"), "1 0 0 2", "1 1 1 2"),
        touched(four("0 5 2 / 3 3 3"), "1 0 2 / 0 0 0", "1 1 2 / 1 1 1"),
        touched(four("0 3 2 / 0 0 3"), "1 0 2 / 1 1 0", "1 1 2 / 1 1 1"),
    ]
}

/// Rows.
fn touched_rows() -> Vec<Touched> {
    vec![
        // The row of the request on depths.
        touched(four("0 2 1 9 5"), "1 0 2 0 3", "1 1 2 1 3"),
        // At the highest places the passes to all patches are equal: the first
        // one is neither the fewest steps away nor the deepest.
        touched(four("3 4 5 0"), "1 0 0 2", "1 1 1 2"),
        touched(four("2 6 6 6 0"), "1 0 0 0 2", "1 1 1 1 2"),
        touched(four("4 7 1 7 0"), "1 0 2 0 3", "1 1 2 1 3"),
        touched(four("2 4 3 5 0"), "1 0 2 0 3", "1 1 2 1 3"),
        touched(four("5 6 5 6 5 6 5"), "1 0 2 0 3 0 4", "1 1 2 1 3 1 4"),
        touched(four("255 0 255 254 255"), "0 1 0 2 0", "1 1 1 2 1"),
        // The way down on one side only.
        touched(four("0 5 4 3"), "1 0 0 2", "1 1 2 2"),
        // The patch that is the fewest steps away lies behind a wall.
        touched(four("0 9 5 4 3 1"), "1 0 0 0 0 2", "1 1 2 2 2 2"),
        touched(four("1 3 4 5 9 0"), "1 0 0 0 0 2", "1 1 1 1 1 2"),
        // The last place lies above the forks at 5 and at 6; the passes to the
        // last three patches are 8, the pass to the first is 9.
        touched(
            four("0 9 3 6 2 5 1 8"),
            "1 0 2 0 3 0 4 0",
            "1 1 2 2 3 3 4 2",
        ),
        // The same from the other end.
        touched(
            four("8 1 5 2 6 3 9 0"),
            "0 1 0 2 0 3 0 4",
            "1 1 1 2 1 3 1 4",
        ),
        // Each higher pass has one more patch below it.
        touched(
            four("1 7 0 6 2 5 3 4"),
            "1 0 2 0 3 0 4 0",
            "1 1 2 2 3 3 4 4",
        ),
    ]
}

/// Pictures of several rows under both adjacencies, with different answers.
fn touched_under_both_adjacencies() -> Vec<Touched> {
    vec![
        // Adjacency 8 leads from the middle to the first patch at 5.
        touched(
            four("0 9 9 / 9 5 4 / 9 9 9"),
            "1 0 0 / 0 0 2 / 0 0 0",
            "1 1 1 / 1 2 2 / 1 1 1",
        ),
        touched(
            eight("0 9 9 / 9 5 4 / 9 9 9"),
            "1 0 0 / 0 0 2 / 0 0 0",
            "1 1 1 / 1 1 2 / 1 1 1",
        ),
        // The first places decide on the numbers: the upper patch on the right
        // is the first, and has the pass 9 from the places of value 4 and 6.
        // Adjacency 8 makes it a place on the line.
        touched(
            four("9 9 7 / 2 4 9 / 9 6 1"),
            "0 0 1 / 2 0 0 / 0 0 3",
            "1 1 1 / 2 2 1 / 1 2 3",
        ),
        touched(
            eight("9 9 7 / 2 4 9 / 9 6 1"),
            "0 0 0 / 1 0 0 / 0 0 2",
            "1 1 1 / 1 1 1 / 1 1 2",
        ),
    ]
}

/// Other pictures of several rows.
fn touched_planes() -> Vec<Touched> {
    vec![
        // The way from the upper right corner leads round the wall.
        touched(
            four("1 9 6 6 / 9 9 9 6 / 0 2 4 6"),
            "1 0 0 0 / 0 0 0 0 / 2 0 0 0",
            "1 1 2 2 / 1 1 1 2 / 2 2 2 2",
        ),
        // A patch of several pixels; it is the only one within 8.
        touched(
            four("9 9 3 / 1 9 9 / 1 1 8"),
            "0 0 1 / 2 0 0 / 2 2 0",
            "1 1 1 / 2 1 1 / 2 2 2",
        ),
        // Four patches round a cross of several heights.
        touched(
            four("3 5 2 / 4 6 4 / 1 5 0"),
            "1 0 2 / 0 0 0 / 3 0 4",
            "1 1 2 / 1 1 2 / 3 1 4",
        ),
    ]
}

/// Small pictures and their touches.
pub fn touches() -> Vec<Touched> {
    [
        touched_table(),
        touched_rows(),
        touched_under_both_adjacencies(),
        touched_planes(),
    ]
    .concat()
}

/// The largest side of a picture.
const SIDE: usize = 40;

/// Places of a corridor that winds through the largest picture: the even rows,
/// from left to right and back by turns, each with the place that leads to the
/// next.
fn corridor() -> Vec<usize> {
    let mut places = Vec::new();
    for row in (0..SIDE).step_by(2) {
        let next = (row + 1) * SIDE;
        let along = row * SIDE..next;
        if row % 4 == 0 {
            places.extend(along);
            places.push(next + SIDE - 1);
        } else {
            places.extend(along.rev());
            places.push(next);
        }
    }
    places
}

/// The longest climb: 1 3 2 4 3 5 and so on up to 251 253 252 254 0 along the
/// corridor, with walls of 255. The pass 254 leads from the first hold to the
/// only deeper one, past 251 forks. Each hold between has a pass that is higher
/// by 1 to the one before it. Then the same with all places in reverse.
pub fn staircases() -> [(Picture, Vec<i32>); 2] {
    let mut rising = vec![255; SIDE * SIDE];
    let values = (1..=252).flat_map(|hold| [hold, hold + 2]).chain([0]);
    for (place, value) in corridor().into_iter().zip(values) {
        rising[place] = value;
    }
    let falling: Vec<u8> = rising.iter().rev().copied().collect();
    let picture = |pixels| Picture {
        width: SIDE,
        height: SIDE,
        pixels,
        adjacency: Adjacency::Four,
    };
    let between = vec![1; 251];
    [
        (picture(rising), [&[253], &between[..], &[255]].concat()),
        (picture(falling), [&[255], &between[..], &[253]].concat()),
    ]
}

/// A picture, and its hold list.
pub type Listed = (Picture, &'static str);

/// Pictures that are their own watersheds. Before each one is the exact centre
/// of its first patch, in tenths.
fn centres_from_rows() -> Vec<Listed> {
    vec![
        // 10 / 4 = 2.5 and 30 / 4 = 7.5: a half down and a half up.
        (
            four("0 0 5 / 0 5 3 / 0 5 3"),
            "picture 3 3\npatches 2 line 3\n1 4 0 5 2 8\n2 2 3 2 20 15\n",
        ),
        // 50 / 3 = 16.67 and 10 / 3 = 3.33.
        (
            four("5 0 0 / 3 5 0"),
            "picture 3 2\npatches 2 line 2\n1 3 0 5 17 3\n2 1 3 2 0 10\n",
        ),
        // 670 / 25 = 26.8 and 340 / 25 = 13.6.
        (
            four("0 0 0 0 0 0 0 / 0 0 0 0 0 0 0 / 0 0 0 0 0 0 5 / 0 0 0 0 0 5 3"),
            "picture 7 4\npatches 2 line 2\n1 25 0 5 27 14\n2 1 3 2 60 30\n",
        ),
        // 1710 / 20 = 85.5 and 10 / 20 = 0.5: a half up and a half to 0.
        (
            four(
                "0 0 0 0 0 0 0 0 0 0 0 0 0 0 0 0 0 0 0 / \
                 0 5 5 5 5 5 5 5 5 5 5 5 5 5 5 5 5 5 5 / \
                 5 3 3 3 3 3 3 3 3 3 3 3 3 3 3 3 3 3 3",
            ),
            "picture 19 3\npatches 2 line 19\n1 20 0 5 86 0\n2 18 3 2 95 20\n",
        ),
    ]
}

/// A picture of zeros with holds of one pixel at these columns and rows, each
/// with four pixels of line around it. They lie inside the picture and apart. So
/// the first patch's sums are those of all places, less 5 times the columns and
/// 5 times the rows of the holds.
fn with_spots(width: usize, height: usize, spots: &[(usize, usize)]) -> Picture {
    let mut pixels = vec![0; width * height];
    for (column, row) in spots {
        let place = row * width + column;
        pixels[place] = 3;
        for beside in [place - width, place - 1, place + 1, place + width] {
            pixels[beside] = 5;
        }
    }
    Picture {
        width,
        height,
        pixels,
        adjacency: Adjacency::Four,
    }
}

/// Columns and rows; the columns add up to 78, the rows to 234.
const EIGHT_SPOTS: [(usize, usize); 8] = [
    (6, 24),
    (12, 24),
    (6, 28),
    (12, 28),
    (18, 30),
    (6, 32),
    (12, 32),
    (6, 36),
];

/// More pictures like those of `centres_from_rows`.
fn centres_with_spots() -> Vec<Listed> {
    vec![
        // 10 (50 - 15) / 20 = 17.5 and 20: a half up.
        (
            with_spots(5, 5, &[(3, 2)]),
            "picture 5 5\npatches 2 line 4\n1 20 0 5 18 20\n2 1 3 2 30 20\n",
        ),
        // 20 and 10 (50 - 5) / 20 = 22.5: a half down.
        (
            with_spots(5, 5, &[(2, 1)]),
            "picture 5 5\npatches 2 line 4\n1 20 0 5 20 22\n2 1 3 2 20 10\n",
        ),
        // 10 (180 - 10) / 40 = 42.5, a half down, and 10 (90 - 15) / 40 = 18.75.
        (
            with_spots(9, 5, &[(2, 3)]),
            "picture 9 5\npatches 2 line 4\n1 40 0 5 42 19\n2 1 3 2 20 30\n",
        ),
        // 10 (31200 - 390) / 1560 = 197.5, a half up, and
        // 10 (31200 - 1170) / 1560 = 192.5, a half down.
        (
            with_spots(40, 40, &EIGHT_SPOTS),
            "picture 40 40\npatches 9 line 32\n1 1560 0 5 198 192\n\
             2 1 3 2 60 240\n3 1 3 2 120 240\n4 1 3 2 60 280\n5 1 3 2 120 280\n\
             6 1 3 2 180 300\n7 1 3 2 60 320\n8 1 3 2 120 320\n9 1 3 2 60 360\n",
        ),
    ]
}

/// Pictures whose centres are rounded, and their hold lists.
pub fn centres() -> Vec<Listed> {
    [centres_from_rows(), centres_with_spots()].concat()
}
