//! Letters that may be shown as they are. Control characters and those that steer the direction or the joining of text never
//! reach a terminal: what a file holds could else change what a reader sees.

use std::borrow::Cow;

/// Whether a letter may be shown as it is.
pub fn is_plain(letter: char) -> bool {
    let steers = matches!(letter,
        '\u{AD}' | '\u{600}'..='\u{605}' | '\u{61C}' | '\u{6DD}' | '\u{70F}' | '\u{890}'..='\u{891}' | '\u{8E2}'
        | '\u{180E}' | '\u{200B}'..='\u{200F}' | '\u{2028}'..='\u{202E}' | '\u{2060}'..='\u{206F}' | '\u{FEFF}'
        | '\u{FFF0}'..='\u{FFFB}' | '\u{110BD}' | '\u{110CD}' | '\u{13430}'..='\u{1345F}' | '\u{1BCA0}'..='\u{1BCA3}'
        | '\u{1D173}'..='\u{1D17A}' | '\u{E0000}'..='\u{E0FFF}');
    !steers && !letter.is_control()
}

/// A text with every letter that may not be shown in the form \u{..}; lines stay lines.
pub fn plain(text: &str) -> Cow<'_, str> {
    let stays = |letter: char| letter == '\n' || is_plain(letter);
    if text.chars().all(stays) {
        return Cow::Borrowed(text);
    }
    let mut shown = String::new();
    for letter in text.chars() {
        match stays(letter) {
            true => shown.push(letter),
            false => shown.extend(letter.escape_unicode()),
        }
    }
    Cow::Owned(shown)
}

/// A text in quotes, in which nothing stands for itself that could end it or be taken for something else.
pub fn quoted(text: &str) -> String {
    let mut shown = String::from("\"");
    for letter in text.chars() {
        match letter {
            '"' | '\\' => shown.extend(['\\', letter]),
            letter if is_plain(letter) => shown.push(letter),
            letter => shown.extend(letter.escape_unicode()),
        }
    }
    shown + "\""
}

#[cfg(test)]
mod tests {
    use super::*;

    #[test]
    fn nothing_steers_a_terminal() {
        for text in [
            "order 7\n",
            "Gr\u{fc}\u{df}e \u{65e5}\u{672c} \u{1f600} e\u{301}",
        ] {
            assert_eq!(plain(text), text);
        }
        assert_eq!(
            plain("a\u{1b}[31m\u{202e}b\u{9b}\r\u{2028}"),
            "a\\u{1b}[31m\\u{202e}b\\u{9b}\\u{d}\\u{2028}"
        );
        assert_eq!(quoted("a\"\\b\n"), "\"a\\\"\\\\b\\u{a}\"");
    }
}
