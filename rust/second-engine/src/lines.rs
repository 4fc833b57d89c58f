//! "Files": what the lines of a drawing and of a rule have in common.
//!
//! "Lines are key=numbers, comma between, no spaces, each ended by byte 10. A number has no sign
//! and no leading zero."

use crate::refusal::{Cause, Refused};

/// Hands the lines of a text to `accept`, from the top and without their byte 10, and gives the
/// number of lines. The first cause that `accept` finds refuses the text at the line it was found.
///
/// What stands after the last byte 10 is a line that isn't ended, and so is out of form.
pub(crate) fn read(text: &[u8], mut accept: impl FnMut(&[u8]) -> Result<(), Cause>) -> Result<u64, Refused> {
    let mut number = 0;
    for piece in text.split_inclusive(|&byte| byte == b'\n') {
        number += 1;
        piece
            .strip_suffix(b"\n")
            .ok_or(Cause::Form)
            .and_then(&mut accept)
            .map_err(|cause| cause.returning(number))?;
    }
    Ok(number)
}

/// A line taken apart at its first `=`: the key, and what should be numbers.
pub(crate) fn key_and_rest(line: &[u8]) -> Option<(&[u8], &[u8])> {
    let equals = line.iter().position(|&byte| byte == b'=')?;
    Some((&line[..equals], &line[equals + 1..]))
}

/// Exactly `N` numbers with a comma between.
pub(crate) fn numbers<const N: usize>(text: &[u8]) -> Option<[u16; N]> {
    let mut parts = text.split(|&byte| byte == b',');
    let mut found = [0; N];
    for slot in &mut found {
        *slot = number(parts.next()?)?;
    }
    parts.next().is_none().then_some(found)
}

/// One number. None in the files passes 65535, so a larger one of any length is out of range
/// whatever its key; out of form and out of range are one cause.
fn number(digits: &[u8]) -> Option<u16> {
    let leading_zero = digits.len() > 1 && digits.starts_with(b"0");
    if leading_zero || !digits.iter().all(u8::is_ascii_digit) {
        return None;
    }
    // An empty text and a number too large are both errors of `parse`.
    std::str::from_utf8(digits).ok()?.parse().ok()
}

/// The number, if it is in the range 0..largest.
pub(crate) fn up_to(largest: u8, number: u16) -> Option<u8> {
    u8::try_from(number).ok().filter(|&number| number <= largest)
}
