//! Letters that can be seen. What a text says is shown to people, on terminals
//! too, where letters that cannot be seen could do harm.

/// How many characters of a wrong word a message shows.
const SHOWN: usize = 40;

/// Whether a letter is one that nobody sees, or that turns the letters behind it
/// around.
pub fn is_hidden(letter: char) -> bool {
    let is_format = matches!(letter,
        '\u{ad}' | '\u{61c}' | '\u{180e}' | '\u{200b}'..='\u{200f}' | '\u{2028}'..='\u{202e}'
        | '\u{2060}'..='\u{206f}' | '\u{feff}' | '\u{fff9}'..='\u{fffb}' | '\u{e0000}'..='\u{e007f}');
    letter.is_control() || is_format
}

/// A text in which all can be seen.
pub fn visible(text: &str) -> String {
    let mut seen = String::with_capacity(text.len());
    for letter in text.chars() {
        if is_hidden(letter) {
            seen.extend(letter.escape_unicode());
        } else {
            seen.push(letter);
        }
    }
    seen
}

/// A word in quotes. A long one is cut, so that a message stays a line.
pub fn quoted(word: &str) -> String {
    let front: String = word.chars().take(SHOWN).collect();
    let rest = if front.len() < word.len() { "..." } else { "" };
    format!("'{}'{rest}", visible(&front))
}
