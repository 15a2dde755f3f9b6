//! Text as HTML has it.

use milestarling::Range;

/// A text in which nothing is taken for markup, in an element or in an attribute.
pub fn escaped(text: &str) -> String {
    let mut safe = String::with_capacity(text.len());
    for letter in text.chars() {
        match letter {
            '&' => safe.push_str("&amp;"),
            '<' => safe.push_str("&lt;"),
            '>' => safe.push_str("&gt;"),
            '"' => safe.push_str("&quot;"),
            '\'' => safe.push_str("&#39;"),
            // HTML has no other control characters.
            control if control.is_control() => safe.push('\u{fffd}'),
            other => safe.push(other),
        }
    }
    safe
}

pub fn code(text: &str) -> String {
    format!("<code>{}</code>", escaped(text))
}

pub fn address(address: u64) -> String {
    code(&format!("{address:#x}"))
}

/// A paragraph in which what stands between backquotes is code.
pub fn paragraph(text: &str) -> String {
    let pieces = text.split('`').enumerate();
    pieces.map(|(at, piece)| if at % 2 == 1 { code(piece) } else { escaped(piece) }).collect()
}

/// `1 byte`, `2 bytes`.
pub fn counted(number: u64, thing: &str) -> String {
    format!("{number} {thing}{}", if number == 1 { "" } else { "s" })
}

/// A sentence's beginning.
pub fn capital(text: &str) -> String {
    let mut letters = text.chars();
    letters.next().map_or_else(String::new, |first| first.to_uppercase().collect::<String>() + letters.as_str())
}

/// The addresses of a range.
pub fn range(range: Range) -> String {
    match range.length {
        0 => "none".into(),
        1 => address(range.address),
        length => format!("{} to {}", address(range.address), address(range.address.wrapping_add(length - 1))),
    }
}
