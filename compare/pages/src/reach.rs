//! All records and definitions, and which of them a text comes to.

use crate::items::Item;
use crate::names::{words, Names};
use crate::tree::{Text, Tree};
use std::collections::{BTreeSet, HashMap};

/// Signs of what is true or not.
const RELATIONS: [&str; 5] = ["≡", "≤", "<", "↔", "⊥"];

/// The records and definitions of all crates, in the order of the tree, with
/// those that each of them cites.
pub struct Definitions<'a> {
    pub items: Vec<Item<'a>>,
    cited: Vec<BTreeSet<usize>>,
    by_name: HashMap<(&'a str, &'a str), usize>,
}

impl<'a> Definitions<'a> {
    pub fn of(tree: &'a Tree) -> Definitions<'a> {
        let texts: Vec<&Text> = tree.crates.iter().flat_map(|one| &one.specs).collect();
        let items: Vec<Item> = texts.iter().flat_map(|text| Item::all(text)).collect();
        let mut by_name = HashMap::new();
        for (index, item) in items.iter().enumerate() {
            for name in item.brings() {
                by_name.insert((item.path, name), index);
            }
        }
        let mut definitions = Definitions {
            items,
            cited: Vec::new(),
            by_name,
        };
        definitions.cited = texts
            .iter()
            .flat_map(|text| definitions.cited_in(text))
            .collect();
        definitions
    }

    /// What each item of a file cites.
    fn cited_in(&self, text: &Text) -> Vec<BTreeSet<usize>> {
        let names = Names::of(text);
        Item::all(text)
            .iter()
            .map(|item| self.cites(text, &names, item.code()))
            .collect()
    }

    /// What some lines of a file cite.
    pub fn cites<'l>(
        &self,
        text: &Text,
        names: &Names,
        lines: impl Iterator<Item = &'l str>,
    ) -> BTreeSet<usize> {
        lines
            .flat_map(words)
            .filter_map(|word| {
                let (path, name) = names.meaning(&text.path, word);
                self.by_name.get(&(path.as_str(), name)).copied()
            })
            .collect()
    }

    /// All that some items come to, themselves included.
    pub fn reached(&self, from: &BTreeSet<usize>) -> BTreeSet<usize> {
        let mut reached = from.clone();
        let mut ahead: Vec<usize> = from.iter().copied().collect();
        while let Some(index) = ahead.pop() {
            for &cited in &self.cited[index] {
                if reached.insert(cited) {
                    ahead.push(cited);
                }
            }
        }
        reached
    }

    /// The statements: types with a relation in them, or with another statement.
    pub fn statements(&self) -> BTreeSet<usize> {
        let types = || (0..self.items.len()).filter(|&index| self.items[index].is_type());
        let mut statements: BTreeSet<usize> = types()
            .filter(|&index| relates(&self.items[index]))
            .collect();
        loop {
            let more: Vec<usize> = types()
                .filter(|index| !statements.contains(index))
                .filter(|&index| !self.cited[index].is_disjoint(&statements))
                .collect();
            if more.is_empty() {
                return statements;
            }
            statements.extend(more);
        }
    }
}

/// Whether a sign of what is true or not stands in an item.
fn relates(item: &Item) -> bool {
    item.code()
        .flat_map(words)
        .any(|word| RELATIONS.contains(&word))
}
