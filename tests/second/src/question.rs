//! A call on 16-bit memory: what it asks, its refusal, and its line as a test
//! case in the form that the module `calls` gives.

use crate::arguments;
use crate::filling;
use crate::hexadecimal;
use crate::lent::{entries_text, LentTree};
use crate::literal::{self, Adjacency, Patch, Picture, PlaceAnswer, Tree};
use crate::quick;

/// Lists of a tree: heights, fathers, first places and map.
const TREE_LISTS: usize = 4;

/// Lists of the figures of patches: sizes, heights, depths, column sums and
/// row sums.
pub const FIGURES: usize = 5;

/// What a call asks of a picture, with the memory that it alone lends.
#[derive(Clone)]
pub enum Question {
    Label { height: u8, out_length: usize },
    Lowerable { place: u32 },
    Tree { lengths: [usize; TREE_LISTS] },
    Check { lent: LentTree },
    Pass { lent: LentTree, places: [u32; 2] },
    Watershed { out_length: usize },
    Place { place: u32 },
    Touch { handbook: u32, place: u32 },
    Patches { lengths: [usize; FIGURES] },
    Fill { size: u32, out_length: usize },
}

/// The kinds of calls but touching and filling.
pub const KINDS: [&str; 8] = [
    "label",
    "lowerable",
    "tree",
    "check",
    "pass",
    "watershed",
    "place",
    "patches",
];

#[derive(Clone)]
pub struct Call {
    pub adjacency: u32,
    pub sides: (u32, u32),
    pub pixels: Vec<u8>,
    pub question: Question,
    pub work_length: usize,
}

/// Whether the literal functions are quick enough; the tests compare the
/// quick ones with them.
fn is_small(picture: &Picture) -> bool {
    picture.count() <= 40
}

pub fn tree_of(picture: &Picture) -> Tree {
    if is_small(picture) {
        literal::tree(picture)
    } else {
        quick::tree(picture)
    }
}

fn pass_of(picture: &Picture, one: usize, other: usize) -> i32 {
    if is_small(picture) {
        literal::pass(picture, one, other)
    } else {
        quick::pass(picture, one, other)
    }
}

fn place_query_of(picture: &Picture, place: usize) -> PlaceAnswer {
    if is_small(picture) {
        literal::place_query(picture, place)
    } else {
        quick::place_query(picture, place)
    }
}

/// The handbook is one that is not refused.
pub fn touch_query_of(picture: &Picture, handbook: u32, place: usize) -> PlaceAnswer {
    let handbook = arguments::handbook(handbook).unwrap();
    if is_small(picture) {
        literal::touch_query(picture, handbook, place)
    } else {
        quick::touch_query(picture, handbook, place)
    }
}

pub fn patches_of(picture: &Picture) -> Vec<Patch> {
    if is_small(picture) {
        literal::patches(picture)
    } else {
        quick::patches(picture)
    }
}

fn fill_of(picture: &Picture, size: usize) -> Picture {
    if is_small(picture) {
        literal::fill(picture, size)
    } else {
        filling::fill(picture, size)
    }
}

/// How many patches there are, and a list of each of their figures.
fn figures_text(patches: &[Patch]) -> String {
    let figures: [fn(&Patch) -> usize; FIGURES] = [
        |patch| patch.size,
        |patch| patch.height as usize,
        |patch| patch.depth as usize,
        |patch| patch.column_sum,
        |patch| patch.row_sum,
    ];
    let lists = figures.map(|figure| {
        let numbers: Vec<usize> = patches.iter().map(figure).collect();
        format!(" {}", entries_text(&numbers))
    });
    format!(" {}{}", patches.len(), lists.concat())
}

/// The pixel's value and the patch's number, 0 for the line.
fn place_text(answer: &PlaceAnswer) -> String {
    format!(" {} {}", answer.value, answer.patch.unwrap_or(0))
}

/// Lengths, each with a space behind it.
fn lengths_text(lengths: &[usize]) -> String {
    lengths
        .iter()
        .map(|length| format!("{} ", length))
        .collect()
}

impl Question {
    pub fn places(&self) -> Vec<u32> {
        match self {
            Question::Lowerable { place }
            | Question::Place { place }
            | Question::Touch { place, .. } => vec![*place],
            Question::Pass { places, .. } => places.to_vec(),
            _ => Vec::new(),
        }
    }

    /// The length of the shortest memory that only this call lends, of
    /// which it needs n entries.
    pub fn least_length(&self) -> Option<usize> {
        match self {
            Question::Label { out_length, .. }
            | Question::Watershed { out_length }
            | Question::Fill { out_length, .. } => Some(*out_length),
            Question::Tree { lengths } => lengths.iter().copied().min(),
            Question::Check { lent } | Question::Pass { lent, .. } => Some(lent.least_length()),
            _ => None,
        }
    }

    pub fn lent_mut(&mut self) -> Option<&mut LentTree> {
        match self {
            Question::Check { lent } | Question::Pass { lent, .. } => Some(lent),
            _ => None,
        }
    }

    /// Sets the length of one of the lists that only this call lends; behind
    /// the last comes the first.
    pub fn set_length(&mut self, which: usize, length: usize) {
        match self {
            Question::Label { out_length, .. }
            | Question::Watershed { out_length }
            | Question::Fill { out_length, .. } => *out_length = length,
            Question::Tree { lengths } => lengths[which % TREE_LISTS] = length,
            Question::Check { lent } | Question::Pass { lent, .. } => {
                lent.set_length(which % TREE_LISTS, length)
            }
            Question::Patches { lengths } => lengths[which % FIGURES] = length,
            _ => {}
        }
    }

    /// Sets one of the places, if the call has places.
    pub fn set_place(&mut self, which: usize, new: u32) {
        match self {
            Question::Lowerable { place }
            | Question::Place { place }
            | Question::Touch { place, .. } => *place = new,
            Question::Pass { places, .. } => places[which] = new,
            _ => {}
        }
    }

    /// Sets the least size, if the call has one.
    pub fn set_size(&mut self, new: u32) {
        if let Question::Fill { size, .. } = self {
            *size = new;
        }
    }

    /// The handbook, if the call is told one.
    pub fn handbook(&self) -> Option<u32> {
        match self {
            Question::Touch { handbook, .. } => Some(*handbook),
            _ => None,
        }
    }

    /// Changes the handbook, if the call is told one.
    pub fn change_handbook(&mut self, change: impl Fn(u32) -> u32) {
        if let Question::Touch { handbook, .. } = self {
            *handbook = change(*handbook);
        }
    }

    /// The call's name and its fields between the pixels and the work length.
    fn fields(&self) -> (&'static str, String) {
        match self {
            Question::Label { height, out_length } => {
                ("label", format!("{} {} ", height, out_length))
            }
            Question::Lowerable { place } => ("lowerable", format!("{} ", place)),
            Question::Tree { lengths } => ("tree", lengths_text(lengths)),
            Question::Check { lent } => ("check", format!("{} ", lent.text())),
            Question::Pass { lent, places } => {
                let [one, other] = places;
                ("pass", format!("{} {} {} ", lent.text(), one, other))
            }
            Question::Watershed { out_length } => ("watershed", format!("{} ", out_length)),
            Question::Place { place } => ("place", format!("{} ", place)),
            Question::Touch { place, .. } => ("touch", format!("{} ", place)),
            Question::Patches { lengths } => ("patches", lengths_text(lengths)),
            Question::Fill { size, out_length } => ("fill", format!("{} {} ", size, out_length)),
        }
    }

    /// The fields behind the number 0, each with a space before it.
    fn answer(&self, picture: &Picture) -> String {
        match self {
            Question::Label { height, .. } => {
                let labels = literal::labels(picture, i32::from(*height));
                let count = labels.iter().max().unwrap();
                format!(" {} {}", count, entries_text(&labels))
            }
            Question::Lowerable { place } => {
                let answer = literal::lowerable(picture, *place as usize);
                format!(" {}", u32::from(answer))
            }
            Question::Tree { .. } => format!(" {}", LentTree::new(&tree_of(picture)).text()),
            Question::Check { .. } => String::new(),
            Question::Pass { places, .. } => {
                let [one, other] = places.map(|place| place as usize);
                format!(" {}", pass_of(picture, one, other))
            }
            Question::Watershed { .. } => {
                format!(" {}", hexadecimal(&quick::watershed(picture).pixels))
            }
            Question::Place { place } => place_text(&place_query_of(picture, *place as usize)),
            Question::Touch { handbook, place } => {
                place_text(&touch_query_of(picture, *handbook, *place as usize))
            }
            Question::Patches { .. } => figures_text(&patches_of(picture)),
            Question::Fill { size, .. } => {
                let filled = fill_of(picture, *size as usize);
                format!(" {}", hexadecimal(&filled.pixels))
            }
        }
    }
}

impl Call {
    pub fn picture(&self) -> Picture {
        arguments::picture(self.adjacency, self.sides, &self.pixels)
    }

    /// The refusal's number or 0. The order is 14, 7, 3, 8, 9, 10, 11, 13.
    pub fn refusal(&self) -> u32 {
        let told = self.question.handbook();
        if told.is_some_and(|handbook| arguments::handbook(handbook).is_none()) {
            return 14;
        }
        let number = arguments::refusal(
            self.adjacency,
            self.sides,
            self.pixels.len(),
            |count| {
                let length = self.question.least_length();
                length.is_none_or(|length| length >= count) && self.work_length >= 5 * count
            },
            &self.question.places(),
        );
        if number != 0 {
            return number;
        }
        match &self.question {
            Question::Check { lent } | Question::Pass { lent, .. }
                if !lent.is(&tree_of(&self.picture())) =>
            {
                11
            }
            Question::Patches { lengths }
                if lengths.iter().min() < Some(&patches_of(&self.picture()).len()) =>
            {
                9
            }
            // The number of pixels is n here.
            Question::Fill { size, .. } if *size == 0 || *size as usize > self.pixels.len() => 13,
            _ => 0,
        }
    }

    pub fn line(&self) -> String {
        let number = self.refusal();
        let (name, fields) = self.question.fields();
        let told = self.question.handbook();
        let mut line = format!(
            "{} {}{} {} {} {} {}{} {}",
            name,
            told.map_or(String::new(), |handbook| format!("{} ", handbook)),
            self.adjacency,
            self.sides.0,
            self.sides.1,
            hexadecimal(&self.pixels),
            fields,
            self.work_length,
            number
        );
        if number == 0 {
            line += &self.question.answer(&self.picture());
        }
        line
    }
}

/// A call that is not refused, its memory as long as needed.
pub fn exact_call(picture: &Picture, question: Question) -> Call {
    Call {
        adjacency: match picture.adjacency {
            Adjacency::Four => 4,
            Adjacency::Eight => 8,
        },
        sides: (picture.width as u32, picture.height as u32),
        pixels: picture.pixels.clone(),
        question,
        work_length: 5 * picture.count(),
    }
}

/// Such a call for each question.
pub fn exact_calls(picture: &Picture, questions: Vec<Question>) -> Vec<Call> {
    questions
        .into_iter()
        .map(|question| exact_call(picture, question))
        .collect()
}

pub fn other_adjacency(picture: &Picture) -> Picture {
    Picture {
        adjacency: match picture.adjacency {
            Adjacency::Four => Adjacency::Eight,
            Adjacency::Eight => Adjacency::Four,
        },
        ..picture.clone()
    }
}
