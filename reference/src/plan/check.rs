//! The rules of names and sorts, on a book that came from elsewhere and on the
//! book of a plan.

use crate::book_test::{check, check_but_names};
use crate::plan::binder::Bound;
use crate::plan::complaint::Complaint;
use crate::plan::error::{refuse, PlanError, Position, Result as PlanResult};
use crate::plan::places::Places;
use crate::plan::syntax::Syntax;
use crate::plan::{names, sorts, Options};

/// Every complaint, those of names first, or the number that the book test
/// refuses the book with.
pub fn check_book(bytes: &[u8]) -> Result<Vec<Complaint>, u32> {
    let program = check(bytes)?;
    let mut complaints = names::complaints(&program);
    // A book knows no goals.
    complaints.extend(sorts::complaints(&program, std::iter::empty()));
    Ok(complaints)
}

/// The names that a book is refused 28 for; none where it is refused otherwise.
pub fn refused_names(bytes: &[u8]) -> Vec<Complaint> {
    check_but_names(bytes).map_or(Vec::new(), |program| names::refused(&program))
}

/// The first complaint is an error at its place in the text. Where its rules
/// are let go, it is a warning.
pub fn check_plan(syntax: &Syntax, bound: &Bound, options: Options) -> PlanResult<Vec<PlanError>> {
    let book = bound.maker.book();
    let program = match check_but_names(&book) {
        Ok(program) => program,
        // The binder lets no such book through; if it did, nothing could be
        // said of its names and sorts.
        Err(number) => {
            let found = format!("refusal {number}");
            return refuse(Position::START, "a plan whose book passes the test", found);
        }
    };
    let goals = bound.goals.iter().map(|goal| goal.term as usize);
    let rules = [
        (names::complaints(&program), options.raw_names),
        (sorts::complaints(&program, goals), options.raw_sorts),
    ];
    let places = Places::of(syntax, &bound.numbers);
    if let Some(refused) = names::refused(&program).first() {
        return Err(Box::new(places.error(refused)));
    }
    let mut warnings = Vec::new();
    for (complaints, is_let_go) in rules {
        let error = complaints.first().map(|first| places.error(first));
        match error {
            Some(error) if !is_let_go => return Err(Box::new(error)),
            warning => warnings.extend(warning),
        }
    }
    Ok(warnings)
}
