//! What `list_patches` answers for the picture of a file, and what it leaves
//! in the lent list and work: calls that list its patches, then calls that
//! are refused.

use crate::compare::{files_of_depths, printed};
use crate::damage;
use crate::file;
use crate::generate;
use crate::hexadecimal;
use crate::literal::{Adjacency, Patch, Picture};
use crate::question::patches_of;
use crate::random::Random;

/// The length of the list and of work, of which a call is lent the front.
const LIST: usize = 801;
const WORK: usize = 8001;

/// How many files are generated.
const GENERATED: usize = 300;

/// `room` records and `entries` entries of work are lent.
#[derive(Clone)]
struct Call {
    adjacency: u32,
    width: usize,
    height: usize,
    pixels: Vec<u8>,
    room: usize,
    entries: usize,
}

impl Call {
    /// Lent more than enough of each.
    fn new(adjacency: u32, width: usize, height: usize, pixels: &[u8]) -> Call {
        Call {
            adjacency,
            width,
            height,
            pixels: pixels.to_vec(),
            room: LIST,
            entries: WORK,
        }
    }

    fn adjacency(&self) -> Option<Adjacency> {
        match self.adjacency {
            4 => Some(Adjacency::Four),
            8 => Some(Adjacency::Eight),
            _ => None,
        }
    }

    /// The patches of the picture, or the number of the first cause of a
    /// refusal in the order 7, 3, 8, 9.
    fn patches(&self) -> Result<Vec<Patch>, u32> {
        let adjacency = self.adjacency().ok_or(7u32)?;
        let sides = 1..=40;
        if !sides.contains(&self.width) || !sides.contains(&self.height) {
            return Err(3);
        }
        let count = self.width * self.height;
        if self.pixels.len() != count {
            return Err(8);
        }
        let patches = patches_of(&Picture {
            width: self.width,
            height: self.height,
            pixels: self.pixels.clone(),
            adjacency,
        });
        if self.room < patches.len() || self.entries < 5 * count {
            return Err(9);
        }
        Ok(patches)
    }

    /// The arguments, the answer's number and value, where the entries of
    /// work that became 0 end and those that are as they were, where the
    /// records that are as they were end; then the records.
    fn text(&self) -> String {
        let arguments = format!(
            "{} {} {} {} {} {}",
            self.adjacency,
            self.width,
            self.height,
            self.pixels.len(),
            self.room,
            self.entries
        );
        match self.patches() {
            Err(number) => format!("{arguments} {number} 0 0 {WORK} {LIST}\n"),
            Ok(patches) => {
                let records: String = patches.iter().map(record).collect();
                let cleared = 5 * self.pixels.len();
                let count = patches.len();
                format!("{arguments} 0 {count} {cleared} {WORK} {LIST}\n{records}")
            }
        }
    }
}

fn record(patch: &Patch) -> String {
    format!(
        "{} {} {} {} {} {}\n",
        patch.number, patch.size, patch.height, patch.depth, patch.column_sum, patch.row_sum
    )
}

/// Lent more than enough, just enough and one too little of each.
fn listed(call: &Call) -> Vec<Call> {
    let count = call.patches().map_or(0, |patches| patches.len());
    let needed = 5 * call.pixels.len();
    [
        (LIST, WORK),
        (count, WORK),
        (count - 1, WORK),
        (count, needed),
        (count, needed - 1),
    ]
    .map(|(room, entries)| Call {
        room,
        entries,
        ..call.clone()
    })
    .to_vec()
}

/// With much room and with none.
fn rooms(call: Call) -> Vec<Call> {
    let none = Call {
        room: 0,
        ..call.clone()
    };
    vec![call, none]
}

/// Each side too short and too long.
fn sides(call: &Call) -> Vec<Call> {
    let wrong = |width, height| Call {
        width,
        height,
        ..call.clone()
    };
    [
        wrong(0, call.height),
        wrong(41, call.height),
        wrong(call.width, 0),
        wrong(call.width, 41),
    ]
    .into_iter()
    .flat_map(rooms)
    .collect()
}

/// Wrong sides with the pixels and with none, then the right sides with a
/// pixel fewer and with one more.
fn refused(call: &Call) -> Vec<Call> {
    let count = call.pixels.len();
    let resized = |length| {
        let mut pixels = call.pixels.clone();
        pixels.resize(length, 0);
        Call {
            pixels,
            ..call.clone()
        }
    };
    [
        sides(call),
        sides(&resized(0)),
        rooms(resized(count - 1)),
        rooms(resized(count + 1)),
    ]
    .concat()
}

/// The text for an accepted file, nothing for a refused one.
pub fn text(input: &[u8]) -> String {
    let Ok(accepted) = file::read(input) else {
        return String::new();
    };
    let pixels = &input[accepted.offset..];
    let under = |number| Call::new(number, accepted.width, accepted.height, pixels);
    [
        listed(&under(4)),
        listed(&under(8)),
        refused(&under(4)),
        refused(&under(8)),
        rooms(under(0)),
        rooms(under(5)),
        refused(&under(5)),
    ]
    .concat()
    .iter()
    .map(Call::text)
    .collect()
}

/// The pictures worked by hand for depths, and generated ones.
fn files() -> Vec<Vec<u8>> {
    let mut files = files_of_depths();
    let mut random = Random::new(80_001);
    for _ in 0..GENERATED {
        let picture = generate::any_picture(&mut random);
        files.push(damage::accepted_file(&mut random, &picture));
    }
    files
}

/// Runs the files through a given `patch_report` program and through this one;
/// answers whether all were equal.
pub fn compare(program: &str) -> bool {
    let files = files();
    for file in &files {
        let expected = text(file);
        assert!(!expected.is_empty(), "a refused file");
        let given = printed(program, &[], file);
        if given.as_deref() != Ok(expected.as_bytes()) {
            println!("records: differ on the file of bytes {}", hexadecimal(file));
            return false;
        }
    }
    println!("records: equal on {} made pictures", files.len());
    true
}
