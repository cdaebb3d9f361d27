//! Texts in the width that is asked for.

use std::fmt::{Alignment, Formatter, Result, Write};

/// Writes a text in the width, alignment and fill asked for. `Formatter::pad` would take the
/// precision for the length at which to cut; here it is the number of decimal places.
pub(crate) fn pad(out: &mut Formatter, text: &str) -> Result {
    let width = out.width().unwrap_or(0);
    let missing = width.saturating_sub(text.chars().count());
    let before = match out.align() {
        Some(Alignment::Right) => missing,
        Some(Alignment::Center) => missing / 2,
        Some(Alignment::Left) | None => 0,
    };
    fill(out, before)?;
    out.write_str(text)?;
    fill(out, missing - before)
}

fn fill(out: &mut Formatter, length: usize) -> Result {
    let character = out.fill();
    (0..length).try_for_each(|_| out.write_char(character))
}
