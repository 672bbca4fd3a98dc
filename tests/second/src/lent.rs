//! A tree that is lent to a call, right or damaged.

use crate::hexadecimal;
use crate::literal::Tree;
use crate::random::Random;

#[derive(Clone)]
pub struct LentTree {
    pub count: u32,
    pub heights: Vec<u8>,
    pub fathers: Vec<u16>,
    pub first_places: Vec<u16>,
    pub map: Vec<u16>,
}

fn entries(numbers: &[usize]) -> Vec<u16> {
    numbers.iter().map(|number| *number as u16).collect()
}

/// Entries, four hexadecimal digits each, highest first.
pub fn entries_text(numbers: &[usize]) -> String {
    entries_hexadecimal(&entries(numbers))
}

fn entries_hexadecimal(entries: &[u16]) -> String {
    let bytes: Vec<u8> = entries
        .iter()
        .flat_map(|entry| entry.to_be_bytes())
        .collect();
    hexadecimal(&bytes)
}

impl LentTree {
    pub fn new(tree: &Tree) -> LentTree {
        LentTree {
            count: tree.heights.len() as u32,
            heights: tree.heights.iter().map(|height| *height as u8).collect(),
            fathers: entries(&tree.fathers),
            first_places: entries(&tree.first_places),
            map: entries(&tree.map),
        }
    }

    /// Appends arbitrary entries up to these lengths of heights, fathers,
    /// first places and map.
    pub fn lengthen(mut self, random: &mut Random, lengths: [usize; 4]) -> LentTree {
        while self.heights.len() < lengths[0] {
            self.heights.push(random.below(256) as u8);
        }
        for (list, length) in self.lists().into_iter().zip(&lengths[1..]) {
            while list.len() < *length {
                list.push(random.below(65_536) as u16);
            }
        }
        self
    }

    /// The lists of 16-bit entries.
    fn lists(&mut self) -> [&mut Vec<u16>; 3] {
        [&mut self.fathers, &mut self.first_places, &mut self.map]
    }

    pub fn least_length(&self) -> usize {
        let lists = [&self.fathers, &self.first_places, &self.map];
        let least = lists.map(|list| list.len()).into_iter().min().unwrap();
        least.min(self.heights.len())
    }

    /// Shortens a list, or lengthens it with zeros.
    pub fn set_length(&mut self, which: usize, length: usize) {
        if which == 0 {
            self.heights.resize(length, 0);
        } else {
            self.lists()[which - 1].resize(length, 0);
        }
    }

    pub fn text(&self) -> String {
        format!(
            "{} {} {} {} {}",
            self.count,
            hexadecimal(&self.heights),
            entries_hexadecimal(&self.fathers),
            entries_hexadecimal(&self.first_places),
            entries_hexadecimal(&self.map)
        )
    }

    /// Whether the count, the list entries below the true count and the map
    /// entries are those of a tree. The lists are long enough.
    pub fn is(&self, tree: &Tree) -> bool {
        let right = LentTree::new(tree);
        self.count == right.count
            && self.heights.starts_with(&right.heights)
            && self.fathers.starts_with(&right.fathers)
            && self.first_places.starts_with(&right.first_places)
            && self.map.starts_with(&right.map)
    }

    /// The tree with its count or one entry changed, each in turn.
    pub fn changes(&self) -> Vec<LentTree> {
        let mut changes = Vec::new();
        let mut with = |change: &dyn Fn(&mut LentTree)| {
            let mut lent = self.clone();
            change(&mut lent);
            changes.push(lent);
        };
        with(&|lent| lent.count += 1);
        with(&|lent| lent.count -= 1);
        for index in 0..self.heights.len() {
            with(&|lent| lent.heights[index] ^= 1);
        }
        for (which, length) in [self.fathers.len(), self.first_places.len(), self.map.len()]
            .into_iter()
            .enumerate()
        {
            for index in 0..length {
                with(&|lent| lent.lists()[which][index] ^= 1);
            }
        }
        changes
    }

    /// Changes the count, an entry, or the numbers of two nodes. Some of
    /// these changes leave the tree right: entries beyond the node count,
    /// map entries beyond n, and entries that happen to stay the same.
    pub fn damage(&mut self, random: &mut Random, places: usize) {
        let count = self.count as usize;
        let node = random.below(count);
        let (place, any) = (random.below(places), random.below(65_536));
        let other_node = random.below(count);
        let entry = random.one_of(&[other_node, place, count, 65_535, any]) as u16;
        match random.below(9) {
            0 => {
                let near = random.one_of(&[self.count - 1, self.count + 1]);
                let far = random.one_of(&[0, places as u32, 65_535, u32::MAX]);
                self.count = random.one_of(&[near, near, far, self.count + 65_536]);
            }
            1 => {
                let step = random.one_of(&[1, 255, entry as u8]);
                self.heights[node] = self.heights[node].wrapping_add(step);
            }
            2 => self.fathers[node] = entry,
            3 => self.first_places[node] = entry,
            4 => self.map[place] = entry,
            5 => {
                // A height and an entry of each list from the true count on.
                if count < places {
                    let beyond = random.between(count, places - 1);
                    self.heights[beyond] ^= 255;
                    self.fathers[beyond] = entry;
                    self.first_places[beyond] = entry;
                }
            }
            6 => {
                let other = random.below(places);
                self.map.swap(place, other);
            }
            7 => self.fathers.swap(node, other_node),
            _ => self.exchange(node, other_node),
        }
    }

    /// Exchanges the numbers of two nodes everywhere.
    fn exchange(&mut self, one: usize, other: usize) {
        self.heights.swap(one, other);
        self.fathers.swap(one, other);
        self.first_places.swap(one, other);
        for list in [&mut self.fathers, &mut self.map] {
            for entry in list.iter_mut() {
                if usize::from(*entry) == one {
                    *entry = other as u16;
                } else if usize::from(*entry) == other {
                    *entry = one as u16;
                }
            }
        }
    }
}
