//! Text for SVG and HTML, whatever is in it.

/// Characters that can't be seen, or that turn the direction of a line, are written as their numbers.
pub fn escape(text: &str) -> String {
    let mut escaped = String::with_capacity(text.len());
    for letter in text.chars() {
        match letter {
            '&' => escaped.push_str("&amp;"),
            '<' => escaped.push_str("&lt;"),
            '>' => escaped.push_str("&gt;"),
            '"' => escaped.push_str("&quot;"),
            '\'' => escaped.push_str("&#39;"),
            unseen if is_unseen(unseen) => escaped.extend(unseen.escape_default()),
            seen => escaped.push(seen),
        }
    }
    escaped
}

fn is_unseen(letter: char) -> bool {
    let marks = ['\u{200b}'..='\u{200f}', '\u{2028}'..='\u{202e}', '\u{2060}'..='\u{206f}', '\u{feff}'..='\u{feff}'];
    letter.is_control()
        || ('\u{fdd0}'..='\u{fdef}').contains(&letter)
        || letter as u32 & 0xfffe == 0xfffe
        || marks.iter().any(|range| range.contains(&letter))
}
