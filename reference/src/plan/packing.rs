//! A maker of books that stores each name once, and no letters or list
//! entries twice where they already stand somewhere.

use crate::book::Section;
use crate::maker::Maker;
use crate::plan::error::{refuse, Position, Result};
use std::collections::HashMap;

#[derive(Default)]
pub struct Packer {
    pub maker: Maker,
    names: HashMap<String, u32>,
}

impl Packer {
    /// The number of a name.
    pub fn name(&mut self, text: &str) -> u32 {
        if let Some(name) = self.names.get(text) {
            return *name;
        }
        let name = match find(&self.maker.letters, text.as_bytes()) {
            Some(start) => {
                self.maker.names.push([start as u32, text.len() as u32]);
                self.maker.names.len() as u32 - 1
            }
            None => self.maker.name(text),
        };
        self.names.insert(text.into(), name);
        name
    }

    /// Start and count of a list.
    pub fn list(&mut self, entries: &[u32]) -> [u32; 2] {
        match find(&self.maker.lists, entries) {
            Some(start) => [start as u32, entries.len() as u32],
            None => self.maker.list(entries),
        }
    }

    /// An error at `at` if a section holds more than a book may.
    pub fn check_limits(&self, at: Position) -> Result<()> {
        let over = |section: &&Section| self.maker.count(**section) > section.most();
        match Section::ALL.iter().find(over) {
            None => Ok(()),
            Some(section) => {
                let section_name = format!("{section:?}").to_lowercase();
                let expected = format!("at most {} {section_name} in a book", section.most());
                refuse(at, expected, "more")
            }
        }
    }
}

/// Where `part` stands in `whole`.
fn find<T: PartialEq>(whole: &[T], part: &[T]) -> Option<usize> {
    if part.is_empty() {
        return Some(0);
    }
    whole.windows(part.len()).position(|window| window == part)
}
