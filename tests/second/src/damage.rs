//! Files of generated pictures: accepted ones, and damaged ones.

use crate::generate::{picture, Generated};
use crate::random::Random;

/// The parts of a file, before they are put together.
struct Parts {
    magic: Vec<u8>,
    gaps: [Vec<u8>; 3],
    numbers: [Vec<u8>; 3],
    end: Vec<u8>,
    pixels: Vec<u8>,
    /// The largest sample of the picture.
    largest: usize,
}

impl Parts {
    fn file(&self) -> Vec<u8> {
        let mut file = self.magic.clone();
        for index in 0..3 {
            file.extend(&self.gaps[index]);
            file.extend(&self.numbers[index]);
        }
        file.extend(&self.end);
        file.extend(&self.pixels);
        file
    }

    /// Puts zeros before a number until it has so many digits.
    fn lengthen_number(&mut self, which: usize, digits: usize) {
        let missing = digits.saturating_sub(self.numbers[which].len());
        self.numbers[which].splice(0..0, vec![b'0'; missing]);
    }

    /// How many bytes the file lacks of a length near 4,096.
    fn missing_bytes(&self, random: &mut Random) -> usize {
        let wanted: usize = random.one_of(&[4096, 4097, 4097, 5000]);
        wanted.saturating_sub(self.file().len())
    }
}

fn plain_parts(picture: &Generated) -> Parts {
    Parts {
        magic: b"P5".to_vec(),
        gaps: [b"\n".to_vec(), b" ".to_vec(), b"\n".to_vec()],
        numbers: [picture.width, picture.height, picture.largest]
            .map(|number| number.to_string().into_bytes()),
        end: b"\n".to_vec(),
        pixels: picture.pixels.clone(),
        largest: picture.largest,
    }
}

fn white_space(random: &mut Random) -> u8 {
    random.one_of(&[9, 10, 13, 32])
}

fn one_text(random: &mut Random, choices: &[&str]) -> Vec<u8> {
    random.one_of(choices).as_bytes().to_vec()
}

fn byte_that_is_not_white_space(random: &mut Random) -> u8 {
    random.one_of(&[11, 12, 0, 8, 14, 31, 33, 160, 163])
}

fn some_white_space(random: &mut Random) -> Vec<u8> {
    let count = random.between(1, 4);
    (0..count).map(|_| white_space(random)).collect()
}

/// A byte that does not end a comment: any but 10 and 13.
fn byte_of_comment(random: &mut Random) -> u8 {
    match random.below(3) {
        0 => random.one_of(b"0123456789#P"),
        1 => random.one_of(&[0, 9, 11, 12, 32, 127, 138, 141]),
        _ => random.between(14, 255) as u8,
    }
}

/// A # and so many bytes that do not end the comment.
fn open_comment(random: &mut Random, count: usize) -> Vec<u8> {
    let mut comment = vec![b'#'];
    comment.extend((0..count).map(|_| byte_of_comment(random)));
    comment
}

/// A comment of so many bytes, 2 at least.
fn comment_of(random: &mut Random, length: usize) -> Vec<u8> {
    let mut comment = open_comment(random, length.saturating_sub(2));
    comment.push(random.one_of(&[10, 13]));
    comment
}

fn short_comment(random: &mut Random) -> Vec<u8> {
    let length = random.one_of(&[2, 3, 4, 8, 14]);
    comment_of(random, length)
}

/// Comments, directly after one another or with white space behind.
fn some_comments(random: &mut Random) -> Vec<u8> {
    let mut comments = Vec::new();
    for _ in 0..random.between(1, 3) {
        comments.extend(short_comment(random));
        if random.below(2) == 0 {
            comments.extend(some_white_space(random));
        }
    }
    comments
}

/// Often writes the header in another way, and often with comments.
fn vary_header(random: &mut Random, parts: &mut Parts) {
    if random.below(2) == 0 {
        for index in 0..3 {
            parts.gaps[index] = some_white_space(random);
            parts.lengthen_number(index, random.between(1, 5));
        }
        parts.end = vec![white_space(random)];
    }
    for _ in 0..random.one_of(&[0, 0, 1, 1, 2, 3]) {
        parts.gaps[random.below(3)].extend(some_comments(random));
    }
}

/// A file that reading accepts, with the picture in it.
pub fn accepted_file(random: &mut Random, picture: &Generated) -> Vec<u8> {
    let mut parts = plain_parts(picture);
    vary_header(random, &mut parts);
    if random.below(24) == 0 {
        let missing = 4096 - parts.file().len();
        parts.gaps[random.below(3)].extend(comment_of(random, missing));
    }
    parts.file()
}

/// A damaged file, though some damage leaves it fit: tabs, for example.
pub fn damaged_file(random: &mut Random) -> Vec<u8> {
    let sides = (random.between(1, 9), random.between(1, 9));
    let mut parts = plain_parts(&picture(random, sides));
    if random.below(2) == 0 {
        vary_header(random, &mut parts);
    }
    // Often two or three kinds of damage at once, for the order of refusals.
    for _ in 0..random.one_of(&[1, 1, 2, 3]) {
        let which = random.below(3);
        let damage = random.one_of(&DAMAGES);
        damage(random, &mut parts, which);
    }
    let file = parts.file();
    let header = file.len() - parts.pixels.len();
    damage_whole(random, file, header)
}

/// Sometimes damages a file that is already put together, or takes another.
fn damage_whole(random: &mut Random, mut file: Vec<u8>, header: usize) -> Vec<u8> {
    match random.below(24) {
        // Truncated anywhere.
        0 | 1 => file.truncate(random.below(file.len() + 1)),
        // Truncated near the header.
        2 => file.truncate(random.between(0, file.len().min(header + 3))),
        // One byte of the header replaced.
        3 => file[random.below(header)] = random.below(256) as u8,
        4 => {
            // Random bytes.
            let count = random.below(60);
            file = (0..count).map(|_| random.below(256) as u8).collect();
        }
        5 | 6 => {
            // Random bytes of the kinds that a header has.
            let count = random.below(24);
            file = b"P5".to_vec();
            let kinds = random.one_of(&[&b"\t\n\r  0123459#"[..], b"\n\r #1"]);
            file.extend((0..count).map(|_| random.one_of(kinds)));
        }
        // One byte of the header replaced by one that starts or ends a comment.
        7 => file[random.below(header)] = random.one_of(b"##\n\r"),
        _ => {}
    }
    file
}

/// Damages the parts; `which` is the gap or the number that is damaged.
type Damage = fn(&mut Random, &mut Parts, usize);

/// The kinds of damage; some stand here twice, to be taken more often.
const DAMAGES: [Damage; 31] = [
    too_few_pixels,
    extra_bytes,
    bad_digit,
    // Five, six or seven digits.
    |random, parts, which| parts.lengthen_number(which, random.between(5, 7)),
    large_number,
    |random, parts, which| parts.gaps[which] = vec![9; random.between(1, 3)],
    |_, parts, which| parts.gaps[which] = b"\r\n".to_vec(),
    |random, parts, _| parts.end = one_text(random, &["\r", "\r\n", "\t"]),
    |random, parts, which| parts.gaps[which] = vec![byte_that_is_not_white_space(random)],
    |random, parts, which| parts.gaps[which].push(byte_that_is_not_white_space(random)),
    |random, parts, which| parts.gaps[which].extend(some_comments(random)),
    // No white space before the comment.
    |random, parts, which| parts.gaps[which] = some_comments(random),
    comment_in_number,
    comment_behind_largest,
    // The comment is taken for pixels.
    |random, parts, _| parts.end.extend(short_comment(random)),
    endless_comment,
    comment_with_wrong_end,
    |_, parts, _| parts.pixels.fill(b'#'),
    |_, parts, which| parts.gaps[which].clear(),
    // No byte, two bytes or a wrong byte behind the third number.
    |random, parts, _| parts.end = one_text(random, &["", "  ", "\x0b", "#"]),
    largest_out_of_range,
    largest_out_of_range,
    side_out_of_range,
    side_out_of_range,
    pixels_too_large,
    pixels_too_large,
    long_gap,
    long_comment,
    long_comment,
    many_extra_bytes,
    wrong_magic,
];

fn too_few_pixels(random: &mut Random, parts: &mut Parts, _: usize) {
    let fewer = random.one_of(&[1, 1, 2, 9]).min(parts.pixels.len());
    parts.pixels.truncate(parts.pixels.len() - fewer);
}

fn extra_bytes(random: &mut Random, parts: &mut Parts, _: usize) {
    for _ in 0..random.one_of(&[1, 1, 2, 9]) {
        parts.pixels.push(random.below(256) as u8);
    }
}

fn bad_digit(random: &mut Random, parts: &mut Parts, which: usize) {
    let place = random.below(parts.numbers[which].len());
    parts.numbers[which][place] = random.one_of(b"/:-+.,aAxOP#\x00\x0b\xb2\xff");
}

fn large_number(random: &mut Random, parts: &mut Parts, which: usize) {
    let choices = ["99999", "100000", "65536", "65541", "00256", "4294967297"];
    parts.numbers[which] = one_text(random, &choices);
}

fn largest_out_of_range(random: &mut Random, parts: &mut Parts, _: usize) {
    parts.numbers[2] = one_text(random, &["0", "256", "257", "65535", "00000"]);
}

fn side_out_of_range(random: &mut Random, parts: &mut Parts, _: usize) {
    let text = one_text(random, &["0", "41", "42", "296", "00000"]);
    parts.numbers[random.below(2)] = text;
}

fn pixels_too_large(random: &mut Random, parts: &mut Parts, _: usize) {
    if parts.largest == 255 || parts.pixels.is_empty() {
        return;
    }
    for _ in 0..random.between(1, 2) {
        let place = random.below(parts.pixels.len());
        parts.pixels[place] = random.between(parts.largest + 1, 255) as u8;
    }
}

fn long_gap(random: &mut Random, parts: &mut Parts, which: usize) {
    let missing = parts.missing_bytes(random);
    parts.gaps[which].extend(vec![32; missing]);
}

fn long_comment(random: &mut Random, parts: &mut Parts, which: usize) {
    let missing = parts.missing_bytes(random);
    parts.gaps[which].extend(comment_of(random, missing));
}

fn comment_in_number(random: &mut Random, parts: &mut Parts, which: usize) {
    parts.lengthen_number(which, 2);
    let place = random.between(1, parts.numbers[which].len() - 1);
    let comment = short_comment(random);
    parts.numbers[which].splice(place..place, comment);
}

/// The white space that ends the header stays behind the comment or is left out.
fn comment_behind_largest(random: &mut Random, parts: &mut Parts, _: usize) {
    let mut comment = short_comment(random);
    if random.below(2) == 0 {
        comment.append(&mut parts.end);
    }
    parts.end = comment;
}

/// Nothing behind the # ends the comment.
fn endless_comment(random: &mut Random, parts: &mut Parts, which: usize) {
    parts.gaps[which].extend(open_comment(random, 2));
    let gaps = parts.gaps[which + 1..].iter_mut();
    let fields = gaps.chain(&mut parts.numbers[which..]);
    let rest = fields.chain([&mut parts.end, &mut parts.pixels]);
    for byte in rest.flatten().filter(|byte| [10, 13].contains(*byte)) {
        *byte = 9;
    }
}

/// The comment goes on behind a byte that does not end it.
fn comment_with_wrong_end(random: &mut Random, parts: &mut Parts, which: usize) {
    let count = random.below(4);
    parts.gaps[which].extend(open_comment(random, count));
    parts.gaps[which].push(random.one_of(&[9, 11, 12, 32]));
}

fn many_extra_bytes(random: &mut Random, parts: &mut Parts, _: usize) {
    let missing = parts.missing_bytes(random);
    parts.pixels.extend(vec![0; missing]);
}

fn wrong_magic(random: &mut Random, parts: &mut Parts, _: usize) {
    let choices = ["", "P", "5", "P4", "P6", "P2", "p5", " P5", "PP5", "5P"];
    parts.magic = one_text(random, &choices);
}

/// The file of a fit picture with a set of the causes 1, 2, 3, 4, 5, 6
/// and 12.
fn file_for_the_order(set: usize) -> Vec<u8> {
    let has = |cause: usize| set >> cause & 1 == 1;
    let mut parts = plain_parts(&Generated {
        kind: "fit",
        width: 3,
        height: 2,
        largest: 9,
        pixels: vec![0, 5, 2, 3, 3, 9],
    });
    if has(0) {
        parts.magic = b"P6".to_vec();
    }
    if has(1) {
        parts.end = b"#".to_vec();
    }
    if has(2) {
        parts.numbers[set % 2] = b"41".to_vec();
    }
    if has(3) {
        parts.numbers[2] = b"0".to_vec();
    }
    if has(4) {
        parts.pixels.push(0);
    }
    if has(5) {
        parts.pixels[4] = 10;
    }
    if has(6) {
        parts.gaps[1] = vec![32; 4096];
    }
    parts.file()
}

/// Files for the order of refusals: one for each set of causes.
pub fn files_for_the_order() -> Vec<Vec<u8>> {
    (0..128).map(file_for_the_order).collect()
}
