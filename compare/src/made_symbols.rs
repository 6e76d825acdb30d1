//! Books in which one name stands wherever a name can, and names at every border
//! of what a symbol is.

use leskofar_reference::book::{kind, Section, BOOL, FIRST_USER_TYPE, INT};
use leskofar_reference::book_test::{FIRST_LETTER, LAST_LETTER};
use leskofar_reference::maker::Maker;
use leskofar_reference::name_faults::may_be_in_literal;
use leskofar_reference::smtlib::words::RESERVED;

/// Names with bars and backslashes in every place.
pub const BARRED: [&str; 24] = [
    "", "|", "||", "|||", "||||", "|a", "a|", "a|b", "|a|", "|a|b|", "||a||", "|a||", "| |",
    "|a b|", "\\", "\\\\", "|\\", "\\|", "|\\|", "|a\\|", "|\\a|", "a\\", "\\a", "a\\b",
];

/// What a name is that of.
#[derive(Clone, Copy, Debug)]
pub enum Role {
    Type,
    Constant,
    Function,
}

pub const ROLES: [Role; 3] = [Role::Type, Role::Constant, Role::Function];

/// A book whose node 1 uses a type, a constant and a function, and a goal that
/// binds the constant.
pub struct Named {
    pub maker: Maker,
    pub goal: u32,
}

pub fn each_letter() -> Vec<String> {
    let letters = (FIRST_LETTER..=LAST_LETTER).map(char::from);
    letters.map(String::from).collect()
}

/// The words, each with a letter more, with one less, and in capitals.
pub fn reserved_and_near() -> Vec<String> {
    let mut names = Vec::new();
    for word in RESERVED {
        let shorter = &word[..word.len() - 1];
        names.extend([word, shorter, &word[1..]].map(String::from));
        names.extend([format!("{word}s"), format!("a{word}"), format!("|{word}|")]);
        names.push(word.to_uppercase());
    }
    names
}

/// One name in one role, the others being plain. The trace is the name too.
pub fn named(role: Role, name: &str) -> Named {
    let mut m = Maker::default();
    let [typ, constant, function] = match role {
        Role::Type => [name, "c", "f"],
        Role::Constant => ["T", name, "f"],
        Role::Function => ["T", "c", name],
    };
    let typ = m.user_type(typ);
    let v = m.constant(constant, typ);
    let f = m.function(function, &[typ, INT], typ);
    let operator = m.name("=");
    let trace = m.name(name);
    filled(m, [v, f, operator, trace])
}

/// One record of a name for a type, a constant, a function, an operator, a trace
/// and, where it may be, a literal.
pub fn shared(name: &str) -> Named {
    let mut m = Maker::default();
    let typ = m.user_type(name);
    let [number] = m.types[0];
    m.constants.push([number, typ]);
    m.functions.push([number, typ, 0, 0, 0, 0]);
    if may_be_in_literal(name) {
        for typ in [typ, BOOL] {
            m.term(kind::CUSTOM_LITERAL, [number, typ]);
        }
    }
    filled(m, [0, 0, number, number])
}

fn filled(mut m: Maker, [v, f, operator, trace]: [u32; 4]) -> Named {
    // What the book has already is used at the node.
    let mut args: Vec<u32> = (0..m.terms.len() as u32).collect();
    let inner = [m.id(v)];
    args.extend([m.apply(f, &inner), m.apply(f, &[])]);
    let [start, count] = m.list(&args);
    let premise = m.term(kind::BUILT_IN, [operator, start, count]);
    m.contexts.push([0, premise, trace + 1]);
    let hint = m.id(v);
    let pattern = m.pattern(&[hint]);
    let [rhs, body] = [m.apply(f, &[]), m.id(v)];
    let bound = m.let_expr(v, rhs, body);
    let goal = m.quantifier(true, &[v], &[pattern], bound);
    Named { maker: m, goal }
}

/// Names of as many letters as a book has: simple ones, such as get bars or have
/// them, and such as have a letter inside that none may have.
pub fn longest_names() -> Vec<String> {
    let most = Section::Letters.most();
    let simple = "a".repeat(most);
    let quoted = format!("|{}|", " ".repeat(most - 2));
    let mut names = vec![
        simple.clone(),
        "0".repeat(most),
        " ".repeat(most),
        quoted.clone(),
    ];
    for (text, letters) in [(&simple, " |\\"), (&quoted, "|\\")] {
        for letter in letters.chars() {
            for place in [1, most / 2, most - 2, most - 1] {
                let mut name = text.clone();
                name.replace_range(place..=place, &letter.to_string());
                names.push(name);
            }
        }
    }
    names
}

/// A literal of each text and of each type, alone in its book, with whether the
/// book is good.
pub fn literals() -> Vec<(Maker, bool)> {
    let mut books = Vec::new();
    let texts = [
        "", " ", "a", "dark red", "let", "40", "a:b", "%tag", "%tag|",
    ];
    for text in texts.into_iter().chain(BARRED) {
        for typ in ["bool", "int", "T", "red 40", "let", "||", "|T|", "|red 40|"] {
            let mut m = Maker::default();
            let number = match typ {
                "bool" => BOOL,
                "int" => INT,
                _ => m.user_type(typ),
            };
            assert!(number < FIRST_USER_TYPE || m.types.len() == 1);
            let literal = m.literal(text, number);
            m.context(0, literal);
            m.literal(text, number);
            let is_good = text == "%tag" || ![text, typ].concat().contains(['|', '\\']);
            books.push((m, is_good));
        }
    }
    books
}

/// The names of a book that has as many as it can.
#[derive(Clone, Copy)]
pub enum NameSort {
    Simple,
    GetsBars,
    Quoted,
    LastIsBad,
}

/// As many types, constants, functions and literals as a book can have, all with
/// as many letters as there can be, which they share.
pub fn many_names(sort: NameSort) -> Maker {
    let most = Section::Letters.most();
    let text = match sort {
        NameSort::Simple | NameSort::LastIsBad => "a".repeat(most),
        NameSort::GetsBars => " ".repeat(most),
        NameSort::Quoted => format!("|{}|", " ".repeat(most - 2)),
    };
    let mut m = Maker::default();
    let name = m.name(&text);
    m.types.resize(Section::Types.most(), [name]);
    m.constants.resize(Section::Constants.most(), [name, INT]);
    let function = [name, INT, 0, 0, 0, 0];
    m.functions.resize(Section::Functions.most(), function);
    if may_be_in_literal(&text) {
        let literal = [kind::CUSTOM_LITERAL, name, INT, 0, 0, 0, 0];
        m.terms.resize(Section::Terms.most(), literal);
    }
    if matches!(sort, NameSort::LastIsBad) {
        m.functions[Section::Functions.most() - 1][0] = m.names.len() as u32;
        m.names.push([0, 0]);
    }
    m
}
