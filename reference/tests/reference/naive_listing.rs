//! A plainer writing of a listing, as strings from a maker's records: what the
//! reference's is held against.

use leskofar_reference::book::{kind, FIRST_USER_TYPE};
use leskofar_reference::maker::Maker;

pub fn naive_listing(m: &Maker, node: u32, goal: u32) -> String {
    let mut premises = String::new();
    let mut at = node;
    while at > 0 {
        let [parent, term, _] = m.contexts[at as usize - 1];
        premises = format!("  {}\n{premises}", term_text(m, term));
        at = parent;
    }
    let goal = term_text(m, goal);
    format!("----- Proof obligation:\n{premises}  |-\n  {goal}\n")
}

fn term_text(m: &Maker, term: u32) -> String {
    let [kind, a, b, c, d, e, f] = m.terms[term as usize];
    match kind {
        kind::BOOLEAN => String::from(["false", "true"][a as usize]),
        kind::INTEGER => (i64::from(b as i32) * (1 << 32) + i64::from(a)).to_string(),
        kind::CUSTOM_LITERAL => format!("{}:{}", name(m, a), type_text(m, b)),
        kind::ID => name(m, m.constants[a as usize][0]),
        kind::BUILT_IN => format!("{}({})", name(m, a), joined(m, b, c, term_text)),
        kind::FUNCTION => {
            let operator = name(m, m.functions[a as usize][0]);
            format!("{operator}({})", joined(m, b, c, term_text))
        }
        kind::IF_THEN_ELSE => {
            let [guard, thn, els] = [a, b, c].map(|part| term_text(m, part));
            format!("(if {guard} {thn} else {els})")
        }
        kind::LET => {
            let [rhs, body] = [b, c].map(|part| term_text(m, part));
            format!("(val {} := {rhs} {body})", variable(m, a))
        }
        _ => {
            let word = ["exists", "forall"][a as usize];
            let variables = joined(m, b, c, variable);
            let patterns: String = entries(m, d, e).iter().map(|p| pattern(m, *p)).collect();
            format!("({word} {variables}{patterns} {})", term_text(m, f))
        }
    }
}

fn pattern(m: &Maker, pattern: u32) -> String {
    let [start, count] = m.patterns[pattern as usize];
    format!(" pattern {}", joined(m, start, count, term_text))
}

fn variable(m: &Maker, constant: u32) -> String {
    let [of, typ] = m.constants[constant as usize];
    format!("{}: {}", name(m, of), type_text(m, typ))
}

fn type_text(m: &Maker, typ: u32) -> String {
    match typ.checked_sub(FIRST_USER_TYPE) {
        None => String::from(["bool", "int"][typ as usize]),
        Some(user) => name(m, m.types[user as usize][0]),
    }
}

fn joined(m: &Maker, start: u32, count: u32, text: fn(&Maker, u32) -> String) -> String {
    let texts: Vec<String> = entries(m, start, count)
        .iter()
        .map(|entry| text(m, *entry))
        .collect();
    texts.join(", ")
}

pub fn entries(m: &Maker, start: u32, count: u32) -> &[u32] {
    &m.lists[start as usize..][..count as usize]
}

fn name(m: &Maker, name: u32) -> String {
    let [start, length] = m.names[name as usize];
    let letters = &m.letters[start as usize..][..length as usize];
    String::from_utf8(letters.to_vec()).expect("letters are ASCII")
}
