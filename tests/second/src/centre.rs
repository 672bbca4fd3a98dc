//! The centre of a patch in tenths: ten times the sum of its columns, or of its
//! rows, over its size, to the nearest tenth, a half to the even tenth.

/// The last column and the last row of a picture of 40 by 40.
const LAST: usize = 39;

/// The largest centre, in tenths.
const LARGEST_CENTRE: usize = 10 * LAST;

/// How far a number of tenths is from the exact quotient, times the size.
fn distance(tenths: usize, sum: usize, size: usize) -> usize {
    (tenths * size).abs_diff(10 * sum)
}

/// Of all whole numbers of tenths the nearest to the exact quotient, of two
/// nearest the even one. The quotient is 0 to 390, so no other number is nearer
/// than 0 or 390.
pub fn tenths(sum: usize, size: usize) -> usize {
    let all = 0..=LARGEST_CENTRE;
    let least = all.clone().map(|tenths| distance(tenths, sum, size)).min();
    let nearest: Vec<usize> = all
        .filter(|tenths| Some(distance(*tenths, sum, size)) == least)
        .collect();
    match nearest[..] {
        [one] => one,
        [one, _] if one % 2 == 0 => one,
        [_, other] if other % 2 == 0 => other,
        _ => panic!("nearest: {:?}", nearest),
    }
}

#[cfg(test)]
mod tests {
    use super::*;

    /// The pixels of a 40 by 40 picture.
    const MOST_PIXELS: usize = 1600;

    /// How many halves of each direction the sums below must have at least.
    const MANY_HALVES: usize = 1000;

    /// Asserts the tenths of a sum over a size, for each entry of a table.
    fn assert_centres(table: &[(usize, usize, usize)]) {
        for (sum, size, expected) in table {
            assert_eq!(tenths(*sum, *size), *expected, "{} over {}", sum, size);
        }
    }

    #[test]
    fn values_of_the_request() {
        assert_centres(&[(1, 4, 2), (3, 4, 8)]);
    }

    #[test]
    fn halves_worked_by_hand() {
        // 4.5, 12.5, 2.5, 42.5 and 192.5: down.
        assert_centres(&[(9, 20, 4), (5, 4, 12), (3, 12, 2), (170, 40, 42)]);
        assert_centres(&[(30_030, 1560, 192)]);
        // 1.5, 17.5, 7.5, 37.5 and 197.5: up.
        assert_centres(&[(3, 20, 2), (7, 4, 18), (9, 12, 8), (150, 40, 38)]);
        assert_centres(&[(30_810, 1560, 198)]);
        // 0.5: to 0.
        assert_centres(&[(1, 20, 0), (80, 1600, 0)]);
    }

    #[test]
    fn values_beside_a_half_worked_by_hand() {
        // 0.48 and 0.53; 2.498 and 2.505; 7.498 and 7.505; 0.494 and 0.506.
        assert_centres(&[(1, 21, 0), (1, 19, 1)]);
        assert_centres(&[(399, 1597, 2), (400, 1597, 3)]);
        assert_centres(&[(1199, 1599, 7), (1200, 1599, 8)]);
        assert_centres(&[(79, 1600, 0), (81, 1600, 1)]);
    }

    #[test]
    fn other_values_worked_by_hand() {
        // Whole quotients: no rounding, to an odd tenth too.
        assert_centres(&[(0, 1, 0), (0, 1600, 0), (1, 1, 10), (1, 2, 5), (3, 10, 3)]);
        // 3.33, 6.67, 13.33, 16.67.
        assert_centres(&[(1, 3, 3), (2, 3, 7), (4, 3, 13), (5, 3, 17)]);
        // 0.4, 1.6, 1.25, 3.75.
        assert_centres(&[(1, 25, 0), (4, 25, 2), (1, 8, 1), (3, 8, 4)]);
    }

    #[test]
    fn largest_values_worked_by_hand() {
        // The last column: of one pixel, of 40.
        assert_centres(&[(39, 1, 390), (1560, 40, 390)]);
        // All pixels, and all but one in the last column, which gives 194.88.
        assert_centres(&[(31_200, 1600, 195), (31_161, 1599, 195)]);
    }

    /// Sums for a size: the least, the largest and, for every 13th tenth, those
    /// around the half above it.
    fn sums(size: usize) -> Vec<usize> {
        let largest = LAST * size;
        let around = (0..LARGEST_CENTRE).step_by(13).flat_map(|tenths| {
            let half = (2 * tenths + 1) * size / 20;
            [half.saturating_sub(1), half, half + 1]
        });
        around
            .chain([0, 1, largest - 1, largest])
            .filter(|sum| *sum <= largest)
            .collect()
    }

    /// Twice the distance from the exact quotient is at most one tenth, and one
    /// tenth at an even number of tenths only; all times the size.
    #[test]
    fn error_is_at_most_half_a_tenth() {
        let (mut halves_down, mut halves_up) = (0, 0);
        for size in 1..=MOST_PIXELS {
            for sum in sums(size) {
                let centre = tenths(sum, size);
                let twice = 2 * distance(centre, sum, size);
                assert!(twice <= size, "{} over {}", sum, size);
                if twice == size {
                    assert_eq!(centre % 2, 0, "{} over {}", sum, size);
                    if centre * size > 10 * sum {
                        halves_up += 1;
                    } else {
                        halves_down += 1;
                    }
                }
            }
        }
        assert!(halves_down >= MANY_HALVES && halves_up >= MANY_HALVES);
    }
}
