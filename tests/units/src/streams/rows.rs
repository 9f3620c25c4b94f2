//! Tables: texts of rows of columns. Signs in a table stand for longer texts.

use std::alloc::{AllocError, Global};

/// Splits a row at the first `sign`. Without one it returns the whole row and an empty text.
pub fn parted<'a>(row: &'a str, sign: &str) -> (&'a str, &'a str) {
    row.split_once(sign).unwrap_or((row, ""))
}

/// Parses a number.
pub fn number(text: &str) -> Option<u64> {
    text.parse().ok()
}

/// Writes a sign out: `~` is a line's end, and `^` a line feed. `&` and `#` stand for the text up to the length, in a
/// request's and in a reply's first lines. `@`, `$` and `%` are the front of an ID, of an action's URI and of a
/// member's URI.
fn put_sign(sign: char, text: &mut String) -> Result<(), AllocError> {
    match sign {
        '~' => text.push_str("\r\n"),
        '^' => text.push_str("\n"),
        '&' => text.push_str(" HTTP/1.1\r\nHost: h\r\nContent-Length: "),
        '#' => text.push_str("\r\nContent-Type: application/json\r\nContent-Length: "),
        '@' => text.push_str("00000000-0000-8007-8000-00000000000"),
        '$' => text.push_str(
            "http://127.0.0.1:8080/lra-coordinator/00000000-0000-8007-8000-00000000000",
        ),
        '%' => text.push_str(
            "http://127.0.0.1:8080/lra-recovery/00000000-0000-8007-8000-00000000000",
        ),
        sign => text.push(sign),
    }
}

fn put_signs(signs: &str, text: &mut String) -> Result<(), AllocError> {
    for sign in signs.chars() {
        put_sign(sign, text)?;
    }
    Ok(())
}

/// Returns a text of a table with its signs written out. It is empty if memory is refused.
pub fn written_out(alloc: Global, signs: &str) -> String {
    let mut text = String::new(alloc);
    if put_signs(signs, &mut text).is_err() {
        text.clear();
    }
    text
}

/// Returns a text `count` times, and then another.
pub fn repeated(alloc: Global, text: &str, count: usize, last: &str) -> Result<String, AllocError> {
    let mut texts = text.repeat(alloc, count)?;
    texts.push_str(last)?;
    Ok(texts)
}
