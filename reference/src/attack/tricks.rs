//! What somebody would try who wants a wrong answer: names that are not what
//! they seem, and commands hidden in them.

use crate::attack::box_plans::{BOUND, BOUND_HUE};
use crate::attack::mutations::Mutation;
use crate::attack::readable::is_integer;
use crate::attack::terms::OPERATORS;
use crate::random::{AT_TIMES, OFTEN, RARELY};
use std::ops::Range;

const PRINTED_LITERALS: [&str; 2] = ["|red:Shade|", "|blue:Shade|"];

/// Names for the solver that are none, or are somebody else's. `#` stands for
/// a box of the plan, `@` for a number of it.
const BAD_NAMES: [&str; 26] = [
    "",
    "two words",
    "|two words|",
    "#",
    "|#|",
    "|red:Shade|",
    "true",
    "false",
    "and",
    "-@",
    "@",
    "|-@|",
    "let",
    "Int",
    "(+ # @)",
    "# ; ",
    "x | y",
    "x \"",
    "# () Int) (assert false) (declare-fun x",
    "x () Int) (assert (= # @)) (declare-fun y",
    "(as # Int)",
    "(! # :named y)",
    "|T)) leskofar-2 unsat leskofar-3|",
    "x) (check-sat) (echo \"leskofar-@\"",
    "abs",
    "-",
];
/// Operators that are none. `~` stands for the one that was there.
const BAD_OPERATORS: [&str; 13] = [
    "",
    "|~|",
    "or true",
    "= @ @) (~",
    "~ @",
    "= # #) (~",
    "= # #))) (assert (not (~",
    "or true))) (assert (not (~",
    "= # @))) (assert (not (~",
    "let ((# @)) ~",
    "(_ divisible 1) 3) (~",
    "exists ((# Int)) (~",
    "#",
];
const BAD_LITERALS: [&str; 7] = [
    "red",
    "blue",
    "red:Shade| |blue",
    "red| () Shade) (assert false) (declare-fun |x",
    "a \"b\"",
    "a\\b",
    "%tag",
];
const BAD_TYPES: [&str; 7] = [
    "|thread kind|",
    "|T)) leskofar-2 unsat leskofar-3|",
    "|T)) leskofar-3 unsat leskofar-4|",
    "|T)) leskofar-4 unsat leskofar-5|",
    "|Shade (|",
    "|red:Shade|",
    "|@|",
];

impl Mutation<'_> {
    pub(super) fn give_name_of_another(&mut self) -> Option<()> {
        let name = self.seen_name()?;
        self.give_name(&name)
    }

    pub(super) fn give_bad_name(&mut self) -> Option<()> {
        let name = self.random.pick(&BAD_NAMES);
        let name = self.filled(name);
        self.give_name(&name)
    }

    pub(super) fn change_literal(&mut self) -> Option<()> {
        let literal = self.random.pick(&BAD_LITERALS);
        let place = self.behind("literal")?;
        self.tokens[place] = quoted(literal);
        Some(())
    }

    pub(super) fn rename_type(&mut self) -> Option<()> {
        let place = self.behind("type")?;
        let name = self.random.pick(&BAD_TYPES);
        let name = self.filled(name);
        self.rename(&self.tokens[place].clone(), &name);
        Some(())
    }

    /// The places of an item's tokens, from its word to before its end.
    fn item(&mut self, words: &[&str]) -> Option<Range<usize>> {
        let begin = self.place(|token| words.contains(&token))?;
        let mut depth = 1;
        for place in begin..self.tokens.len() {
            match self.tokens[place].as_str() {
                "(" => depth += 1,
                ")" => depth -= 1,
                _ => {}
            }
            if depth == 0 {
                return Some(begin..place);
            }
        }
        None
    }

    /// A name that the solver sees already: of an item or of a literal; or one
    /// that z3 takes for a number.
    fn seen_name(&mut self) -> Option<String> {
        if self.random.one_in(RARELY) {
            return Some(self.random.pick(&PRINTED_LITERALS).into());
        }
        if self.random.one_in(RARELY) {
            return Some(self.filled("-@"));
        }
        let item = self.item(&["constant", "type", "function"])?;
        let tokens = &self.tokens[item];
        let name = match tokens.iter().position(|token| token == ":name") {
            Some(key) => tokens.get(key + 1)?.trim_matches('"'),
            None => tokens.get(1)?,
        };
        Some(if self.random.one_in(AT_TIMES) {
            format!("|{name}|")
        } else {
            name.into()
        })
    }

    /// Gives an item a name for the solver, instead of the one that it may
    /// have. The one that is bound is the most rewarding.
    fn give_name(&mut self, name: &str) -> Option<()> {
        let mut item = self.item(&["constant", "type", "function"])?;
        if !self.random.one_in(AT_TIMES) {
            let bound = self.random.pick(&[BOUND, BOUND_HUE]);
            let declares_bound = |two: &[String]| two[0] == "constant" && two[1] == bound;
            let begin = self.tokens.windows(2).position(declares_bound)?;
            let end = begin + self.tokens[begin..].iter().position(|token| token == ")")?;
            item = begin..end;
        }
        let tokens = &self.tokens[item.clone()];
        match tokens.iter().position(|token| token == ":name") {
            Some(key) if key + 1 < tokens.len() => {
                self.tokens[item.start + key + 1] = quoted(name);
            }
            Some(_) => return None,
            None => {
                let given = [":name".to_string(), quoted(name)];
                self.tokens.splice(item.end..item.end, given);
            }
        }
        Some(())
    }

    /// A constant's name where it is declared.
    fn a_constant(&mut self) -> Option<String> {
        let place = self.behind("constant")?;
        Some(self.tokens[place].clone())
    }

    /// The name right behind `let` or a quantifier, and at times all others in
    /// the plan too.
    pub(super) fn rename_bound(&mut self) -> Option<()> {
        let place = self.place(|token| ["let", "forall", "exists"].contains(&token))? + 3;
        let before = self.tokens.get(place)?.clone();
        let name = self.a_constant()?;
        self.tokens[place] = name.clone();
        if self.random.one_in(OFTEN) {
            self.rename(&before, &name);
        }
        Some(())
    }

    /// A constant, declared and used, gets the name that a literal is printed
    /// by.
    pub(super) fn rename_constant_as_literal(&mut self) -> Option<()> {
        let name = if self.random.one_in(OFTEN) {
            BOUND_HUE.into()
        } else {
            self.a_constant()?
        };
        self.behind("type")?;
        let literal = self.random.pick(&PRINTED_LITERALS);
        // A literal that is written so would become the constant itself.
        if self.tokens.iter().any(|token| token == literal) {
            return None;
        }
        self.rename(&name, literal);
        Some(())
    }

    fn rename(&mut self, from: &str, to: &str) {
        for token in self.tokens.iter_mut().filter(|token| *token == from) {
            *token = to.into();
        }
    }

    /// Another operator, or by `builtin` one that is none.
    pub(super) fn change_operator(&mut self) -> Option<()> {
        let place = self.place(|token| OPERATORS.iter().any(|(name, _)| *name == token))?;
        let (name, _) = self.random.pick(&OPERATORS);
        if self.random.one_in(OFTEN) {
            self.tokens[place] = name.into();
        } else {
            let name = self
                .random
                .pick(&BAD_OPERATORS)
                .replace('~', &self.tokens[place]);
            let given = ["builtin".to_string(), quoted(&self.filled(&name))];
            self.tokens.splice(place..=place, given);
        }
        Some(())
    }

    /// A bad name with the plan's own boxes and numbers.
    fn filled(&mut self, name: &str) -> String {
        let mut filled = String::new();
        for letter in name.chars() {
            match letter {
                '#' => filled += &format!("box_{}", 1 + self.random.below(2)),
                '@' => {
                    let number = self.place(is_integer).map(|place| &self.tokens[place]);
                    filled += number.map_or("1", |number| number.trim_start_matches('-'));
                }
                _ => filled.push(letter),
            }
        }
        filled
    }
}

fn quoted(text: &str) -> String {
    format!("\"{}\"", text.replace('"', "\"\""))
}
