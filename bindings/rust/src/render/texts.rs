//! Texts of cells, as a terminal is sent them.

use crate::error::Error;
use crate::graphemes::{graphemes, text_width};
use crate::widths::Widths;
use std::borrow::Cow;

/// A cell's text, as it is sent.
#[derive(PartialEq, Eq, Debug)]
pub(super) struct Shown<'a> {
    pub text: Cow<'a, str>,
    /// How many columns it takes on terminals that measure each character by itself.
    pub columns: usize,
}

/// The text to send for a cell of this many columns. Control characters are left out. A text whose
/// first character takes no column stands on a space, which it joins, or else is left out. Blanks
/// are added to what is too short, or replace what is too long.
///
/// # Errors
///
/// [`Error::Memory`].
pub(super) fn shown(text: &str, columns: usize, widths: Widths) -> Result<Shown<'_>, Error> {
    if columns == 1 && is_printable(text) {
        return Ok(Shown {
            text: text.into(),
            columns,
        });
    }
    let mut text = Cow::from(text);
    if text.contains(char::is_control) {
        text.to_mut().retain(|it| !it.is_control());
    }
    let first = text.chars().next();
    if first.map_or(true, |it| width(it, widths) == 0) {
        text = if joins(" ", &text, widths)? {
            [" ", &text].concat().into()
        } else {
            " ".into()
        };
    }
    match text_width(&text, widths) {
        measured if measured > columns => text = " ".repeat(columns).into(),
        measured => text.to_mut().push_str(&" ".repeat(columns - measured)),
    }
    let columns = text.chars().map(|it| width(it, widths)).sum();
    Ok(Shown { text, columns })
}

/// Whether a text is one printable character of ASCII.
fn is_printable(text: &str) -> bool {
    matches!(text.as_bytes(), [b' '..=b'~'])
}

fn width(character: char, widths: Widths) -> usize {
    text_width(character.encode_utf8(&mut [0; 4]), widths)
}

/// Whether what is printed after a text would be one grapheme with it.
///
/// # Errors
///
/// [`Error::Memory`].
pub(super) fn joins(text: &str, behind: &str, widths: Widths) -> Result<bool, Error> {
    if text.is_ascii() && behind.is_ascii() {
        return Ok(false);
    }
    let (last, first) = (text.chars().next_back(), behind.chars().next());
    if last.map_or(true, stays_alone) && first.map_or(true, stays_alone) {
        return Ok(false);
    }
    let both = [text, behind].concat();
    let mut end = 0;
    for (grapheme, _) in graphemes(&both, widths)? {
        if end >= text.len() {
            break;
        }
        end += grapheme.len();
    }
    Ok(end != text.len())
}

/// Whether a character is of the common ones that don't join others of them.
fn stays_alone(character: char) -> bool {
    matches!(
        character,
        ' '..='~'
            | '\u{a1}'..='\u{ac}'
            | '\u{ae}'..='\u{2ff}'
            | '\u{370}'..='\u{482}'
            | '\u{48a}'..='\u{58f}'
            | '\u{2010}'..='\u{2027}'
            | '\u{2030}'..='\u{205e}'
            | '\u{20a0}'..='\u{20c0}'
            | '\u{2190}'..='\u{2bff}'
            | '\u{3001}'..='\u{3029}'
            | '\u{3041}'..='\u{3096}'
            | '\u{30a0}'..='\u{30ff}'
            | '\u{3400}'..='\u{9fff}'
            | '\u{ff01}'..='\u{ff60}'
    )
}

#[cfg(test)]
mod tests {
    use super::*;

    #[test]
    fn texts_take_their_columns() {
        for (text, columns, wanted, by_characters) in [
            ("a", 1, "a", 1),
            ("か", 2, "か", 2),
            ("e\u{301}", 1, "e\u{301}", 1),
            ("か", 1, " ", 1),
            ("a", 2, "a ", 2),
            ("", 1, " ", 1),
            ("", 2, "  ", 2),
            ("\u{301}", 1, " \u{301}", 1),
            ("\u{1161}", 1, " ", 1),
            ("\u{7f}", 1, " ", 1),
            ("a\u{9b}\x1b", 1, "a", 1),
            ("☂\u{fe0f}", 2, "☂\u{fe0f}", 1),
            ("👩‍🚀", 2, "👩‍🚀", 4),
        ] {
            let shown = shown(text, columns, Widths::Unicode).unwrap();
            assert_eq!(shown.text, wanted, "{text:?}");
            assert_eq!(shown.columns, by_characters, "{text:?}");
        }
    }

    #[test]
    fn some_texts_join_those_before() {
        for (text, behind, wanted) in [
            ("a", "b", false),
            ("か", "漢", false),
            ("か", "\u{301}", true),
            ("🇩", "🇪", true),
            ("🇩🇪", "🇩", false),
            ("👩\u{200d}", "🚀", true),
            ("👩", "🚀", false),
            ("", "🚀", false),
        ] {
            assert_eq!(
                joins(text, behind, Widths::Unicode),
                Ok(wanted),
                "{text}{behind}"
            );
        }
    }
}
