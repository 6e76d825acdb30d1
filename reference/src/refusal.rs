//! The numbers of the refusals of documents 01 and 02.

pub const SCRATCH_SHORT: u32 = 1;
pub const CONTENTS: u32 = 2;
pub const COUNT: u32 = 3;
pub const FIELD: u32 = 4;
pub const FOREST: u32 = 5;
pub const DEPTH: u32 = 6;
pub const NOT_IN_BOOK: u32 = 7;
pub const REPLY_UNSAT: u32 = 8;
pub const MISSING_AXIOM: u32 = 9;
pub const TOO_LONG: u32 = 10;
pub const OPERATOR_CODE: u32 = 11;
pub const SESSION: u32 = 20;
pub const SOMETHING_OWED: u32 = 21;
pub const NO_REPLY_OWED: u32 = 22;
pub const NO_MODEL_OWED: u32 = 23;
pub const TOO_DEEP_FOR_NARROW: u32 = 24;
pub const TAG_IN_BOOK: u32 = 25;
pub const FOREIGN_LINE: u32 = 26;
pub const CHECKS_DIFFER: u32 = 27;
pub const BAD_NAME: u32 = 28;

/// Ends the call with `number` if `fault` holds.
pub fn refuse_if(fault: bool, number: u32) -> Result<(), u32> {
    if fault {
        Err(number)
    } else {
        Ok(())
    }
}

/// What a number means, after the documents' lists.
pub fn meaning(number: u32) -> &'static str {
    match number {
        SCRATCH_SHORT => "scratch shorter than 128 bytes",
        CONTENTS => "book under 80 bytes, or contents not as laid out",
        COUNT => "a count over its limit",
        FIELD => "a field or reached list entry out of range, an unused field not 0, a bad letter",
        FOREST => "a child not smaller than its parent, or a term referred to twice",
        DEPTH => "a node deeper than 400",
        NOT_IN_BOOK => "the call's node or term is not in the book",
        REPLY_UNSAT => "the model call's reply is `unsat`",
        MISSING_AXIOM => "a declared function's axiom has no term",
        TOO_LONG => "the text, the reason or the new book is longer than its buffer",
        OPERATOR_CODE => "an operator code outside 1 to 14",
        SESSION => "the session is not that of a fresh move to its top node",
        SOMETHING_OWED => "move or ask while a reply or model is owed",
        NO_REPLY_OWED => "reply given, none owed",
        NO_MODEL_OWED => "model given, none owed",
        TOO_DEEP_FOR_NARROW => "a session deeper than 64 is to become narrow",
        TAG_IN_BOOK => "the book of an audit holds a %tag literal",
        FOREIGN_LINE => "a line of a script is no command of ours, or pops the first level",
        CHECKS_DIFFER => "a script has more or fewer check-sats than there are questions",
        BAD_NAME => "a name that cannot go to a solver: empty, or with a bar or backslash",
        _ => "no refusal's number",
    }
}
