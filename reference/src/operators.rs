//! `OperatorToString`: the names of the operator codes.

use crate::refusal::{refuse_if, OPERATOR_CODE, TOO_LONG};

/// The names in the order of the Dafny match; code 1 is the first.
pub const NAMES: [&[u8]; 14] = [
    b"=", b"=>", b"and", b"or", b"=", b"<", b"<=", b"+", b"-", b"*", b"div", b"mod", b"not", b"-",
];

/// The public call: refusals 11, then 10. Accepted, the name stands at the
/// text's begin and its length is returned.
pub fn operator(code: u64, text: &mut [u8]) -> Result<usize, u32> {
    let names = 1..=NAMES.len() as u64;
    refuse_if(!names.contains(&code), OPERATOR_CODE)?;
    let name = NAMES[code as usize - 1];
    refuse_if(name.len() > text.len(), TOO_LONG)?;
    text[..name.len()].copy_from_slice(name);
    Ok(name.len())
}
