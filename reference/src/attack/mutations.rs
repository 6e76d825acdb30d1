//! Changes of a plan's text: slips of the hand (`slips`), and what somebody
//! would try who wants a wrong answer (`tricks`).

use crate::attack::readable::tokens;
use crate::random::{Random, AT_TIMES};

const MOST_MUTATIONS: usize = 3;

#[derive(Clone, Copy, Debug, PartialEq, Eq)]
pub enum Way {
    Dropped,
    Doubled,
    Swapped,
    Replaced,
    ParenthesisMoved,
    LimitInSum,
    NumberChanged,
    NameOfAnother,
    BadName,
    BoundRenamed,
    BoundAsLiteral,
    HungElsewhere,
    OperatorChanged,
    LiteralChanged,
    TypeRenamed,
}

/// The most rewarding stand twice.
pub const WAYS: [Way; 17] = [
    Way::Dropped,
    Way::Doubled,
    Way::Swapped,
    Way::Replaced,
    Way::ParenthesisMoved,
    Way::LimitInSum,
    Way::NumberChanged,
    Way::NameOfAnother,
    Way::NameOfAnother,
    Way::BadName,
    Way::BoundRenamed,
    Way::BoundAsLiteral,
    Way::BoundAsLiteral,
    Way::HungElsewhere,
    Way::OperatorChanged,
    Way::LiteralChanged,
    Way::TypeRenamed,
];

/// The text with some changes, and which.
pub fn mutated(random: &mut Random, text: &str) -> (String, Vec<Way>) {
    let mut mutation = Mutation {
        tokens: tokens(text).unwrap_or_default(),
        random,
    };
    let mut ways = Vec::new();
    let mut count = 1;
    while count < MOST_MUTATIONS && mutation.random.one_in(AT_TIMES) {
        count += 1;
    }
    while ways.len() < count {
        let way = mutation.random.pick(&WAYS);
        if mutation.change(way).is_some() {
            ways.push(way);
        }
    }
    (mutation.text(), ways)
}

pub(super) struct Mutation<'r> {
    pub(super) tokens: Vec<String>,
    pub(super) random: &'r mut Random,
}

impl Mutation<'_> {
    /// Each item on its line.
    fn text(&self) -> String {
        let mut text = String::new();
        let mut depth = 0;
        for token in &self.tokens {
            match token.as_str() {
                "(" => depth += 1,
                ")" => depth -= 1,
                _ => {}
            }
            text += token;
            text.push(if depth > 0 { ' ' } else { '\n' });
        }
        text
    }

    /// Nothing where the plan has no place for such a change.
    fn change(&mut self, way: Way) -> Option<()> {
        match way {
            Way::Dropped => self.drop_token(),
            Way::Doubled => self.double_token(),
            Way::Swapped => self.swap_words(),
            Way::Replaced => self.replace_word(),
            Way::ParenthesisMoved => self.move_parenthesis(),
            Way::LimitInSum => self.move_limit(),
            Way::NumberChanged => self.change_number(),
            Way::NameOfAnother => self.give_name_of_another(),
            Way::BadName => self.give_bad_name(),
            Way::BoundRenamed => self.rename_bound(),
            Way::BoundAsLiteral => self.rename_constant_as_literal(),
            Way::HungElsewhere => self.hang_elsewhere(),
            Way::OperatorChanged => self.change_operator(),
            Way::LiteralChanged => self.change_literal(),
            Way::TypeRenamed => self.rename_type(),
        }
    }

    /// A random place of such a token.
    pub(super) fn place(&mut self, is_sought: impl Fn(&str) -> bool) -> Option<usize> {
        let sought = |place: &usize| is_sought(&self.tokens[*place]);
        let places: Vec<usize> = (0..self.tokens.len()).filter(sought).collect();
        (!places.is_empty()).then(|| self.random.pick(&places))
    }

    /// The place behind such a word.
    pub(super) fn behind(&mut self, word: &str) -> Option<usize> {
        let place = self.place(|token| token == word)? + 1;
        (place < self.tokens.len()).then_some(place)
    }
}
