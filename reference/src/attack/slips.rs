//! Slips of the hand.

use crate::attack::mutations::Mutation;
use crate::attack::readable::{is_integer, is_simple};
use crate::random::{AT_TIMES, OFTEN};

/// How far a parenthesis or a number moves.
const MOST_MOVE: usize = 3;

impl Mutation<'_> {
    pub(super) fn drop_token(&mut self) -> Option<()> {
        let place = self.place(|_| true)?;
        self.tokens.remove(place);
        Some(())
    }

    pub(super) fn double_token(&mut self) -> Option<()> {
        let place = self.place(|_| true)?;
        self.tokens.insert(place, self.tokens[place].clone());
        Some(())
    }

    pub(super) fn swap_words(&mut self) -> Option<()> {
        let [a, b] = [self.place(is_word)?, self.place(is_word)?];
        self.tokens.swap(a, b);
        Some(())
    }

    pub(super) fn replace_word(&mut self) -> Option<()> {
        let [a, b] = [self.place(is_word)?, self.place(is_word)?];
        self.tokens[a] = self.tokens[b].clone();
        Some(())
    }

    pub(super) fn move_parenthesis(&mut self) -> Option<()> {
        let from = self.place(|token| token == "(" || token == ")")?;
        let by = 1 + self.random.below(MOST_MOVE);
        let to = if self.random.one_in(OFTEN) {
            from.checked_sub(by)?
        } else {
            from + by
        };
        let parenthesis = self.tokens.remove(from);
        self.tokens.insert(to.min(self.tokens.len()), parenthesis);
        Some(())
    }

    /// `) 3 )` becomes `3 ) )`.
    pub(super) fn move_limit(&mut self) -> Option<()> {
        let slips = |three: &[String]| three[0] == ")" && is_integer(&three[1]) && three[2] == ")";
        let triples = self.tokens.windows(3).enumerate();
        let found = triples.filter(|(_, three)| slips(three));
        let places: Vec<usize> = found.map(|(place, _)| place).collect();
        if places.is_empty() {
            return None;
        }
        let place = self.random.pick(&places);
        self.tokens.swap(place, place + 1);
        Some(())
    }

    pub(super) fn change_number(&mut self) -> Option<()> {
        let place = self.place(is_integer)?;
        let number: i64 = self.tokens[place].parse().ok()?;
        let by = 1 + self.random.below(MOST_MOVE) as i64;
        let changed = match self.random.below(4) {
            0 => number.checked_add(by)?,
            1 => number.checked_sub(by)?,
            2 => number.checked_neg()?,
            _ => i64::MAX,
        };
        self.tokens[place] = changed.to_string();
        Some(())
    }

    /// A node below another, or a goal asked at another.
    pub(super) fn hang_elsewhere(&mut self) -> Option<()> {
        let place = self.place(|token| token == "node" || token == "goal")? + 2;
        let node = self.behind("node")?;
        let node = self.tokens[node].clone();
        *self.tokens.get_mut(place)? = if self.random.one_in(AT_TIMES) {
            "root".into()
        } else {
            node
        };
        Some(())
    }
}

/// What may stand for another: a name, a number, a text.
fn is_word(token: &str) -> bool {
    is_simple(token) || is_integer(token) || token.starts_with(['"', '|'])
}
