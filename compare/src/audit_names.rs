//! Own texts with names that make odd lines: a symbol or a literal makes a
//! command wherever its book is one, an operator where its name does.

use crate::audit::Audits;
use crate::audit_books::{CLOSES_AND_OPENS, ODD_NAMES};
use crate::audit_call::{AuditCall, Outcome};
use crate::audit_texts::own_text;
use crate::tally::Met;
use leskofar_reference::audit::Verdict;
use leskofar_reference::audit_samples::bytes;
use leskofar_reference::book::INT;
use leskofar_reference::maker::Maker;
use leskofar_reference::name_faults::{may_be_declared, may_be_in_literal, TAG};
use leskofar_reference::refusal::{BAD_NAME, FOREIGN_LINE, TAG_IN_BOOK};

/// What a name is the name of.
#[derive(Clone, Copy, PartialEq)]
enum Role {
    Type,
    Constant,
    Function,
    Literal,
    Operator,
}

impl Role {
    const ALL: [Role; 5] = [
        Role::Type,
        Role::Constant,
        Role::Function,
        Role::Literal,
        Role::Operator,
    ];

    /// What comes of the own text. A type's name stands in a literal's too; an
    /// operator's is sent as it is, in no declaration and only deep in a term.
    fn answer(self, name: &str, is_command: bool) -> Result<Verdict, u32> {
        let in_literal = may_be_in_literal(name);
        match self {
            Role::Type if !(may_be_declared(name) && in_literal) => Err(BAD_NAME),
            Role::Constant | Role::Function if !may_be_declared(name) => Err(BAD_NAME),
            Role::Literal if !in_literal => Err(BAD_NAME),
            Role::Literal if name == TAG => Err(TAG_IN_BOOK),
            Role::Operator if !(is_command || name == CLOSES_AND_OPENS) => Err(FOREIGN_LINE),
            _ => Ok(Verdict::Agrees),
        }
    }

    /// A book with the name in this role, and a goal that uses it.
    fn book(self, name: &str) -> (Vec<u8>, u32) {
        let mut m = Maker::default();
        let named = |role, usual| if self == role { name } else { usual };
        let typ = m.user_type(named(Role::Type, "T"));
        let constant = m.constant(named(Role::Constant, "c"), typ);
        let function = m.function(named(Role::Function, "f"), &[typ], INT);
        let id = m.id(constant);
        let applied = m.apply(function, &[id]);
        let literal = m.literal(named(Role::Literal, "l"), typ);
        let goal = m.built_in(named(Role::Operator, "and"), &[applied, literal]);
        (m.book(), goal)
    }
}

fn odd_names(met: &mut Met<Outcome>) -> Result<(), String> {
    for (name, is_command) in ODD_NAMES {
        for role in Role::ALL {
            let (book, goal) = role.book(name);
            let answer = role.answer(name, is_command);
            // There is no text where no call takes the book.
            let text = match answer {
                Err(BAD_NAME) => Vec::new(),
                _ => own_text(&book, 0, goal)?,
            };
            let call = AuditCall {
                book: &book,
                questions: &bytes(&[[0, goal]]),
                script: &text,
            };
            call.expect(answer, met)?;
            // With the name changed about.
            let other = String::from_utf8_lossy(&text).replace('|', "");
            let call = AuditCall {
                script: other.as_bytes(),
                ..call
            };
            call.compare_plainly(met)?;
        }
    }
    Ok(())
}

pub fn run(audits: &mut Audits) {
    audits.group("audit, own texts with odd names", |met| {
        odd_names(met)?;
        met.only(&[
            Outcome::Accepted,
            Outcome::DiffersAtOnce,
            Outcome::Refused(TAG_IN_BOOK),
            Outcome::Refused(FOREIGN_LINE),
            Outcome::Refused(BAD_NAME),
        ])
    });
}
