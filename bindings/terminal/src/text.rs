//! Characters, and the grapheme that was printed last.

use tikeburo::{text_width, Widths};
/// Whether a character is simple: between simple ones it is a grapheme by itself, of one column or
/// two. Any other character is taken by itself, and may join the one before it.
pub(crate) fn is_simple(character: char) -> bool {
    columns_of_simple(character).is_some()
}

/// How many columns a simple character has by Unicode.
#[derive(Clone, Copy, PartialEq, Eq)]
enum Columns {
    One,
    Two,
    /// One or two: the library says which.
    OneOrTwo,
}

impl Columns {
    /// The columns by these widths, or nothing where the library has to say.
    #[inline]
    fn known(self, widths: Widths) -> Option<usize> {
        match (self, widths) {
            (Columns::One, Widths::Unicode) | (_, Widths::OneColumn) => Some(1),
            (Columns::Two, Widths::Unicode) => Some(2),
            _ => None,
        }
    }
}

/// The columns of a simple character. Those that are most frequent are found in few steps.
#[inline(always)]
fn columns_of_simple(character: char) -> Option<Columns> {
    match character {
        ' '..='~' => Some(Columns::One),
        '\u{3041}'..='\u{3096}' | '\u{4e00}'..='\u{9fff}' => Some(Columns::Two),
        '\u{c0}'..='\u{2ff}' | '\u{391}'..='\u{482}' => Some(Columns::One),
        '\u{2200}'..='\u{22ff}' | '\u{2500}'..='\u{25fc}' => Some(Columns::One),
        _ => columns_of_any(character),
    }
}

#[inline(never)]
fn columns_of_any(character: char) -> Option<Columns> {
    Some(match character {
        ' '..='~'
        | '\u{a0}'..='\u{ac}'
        | '\u{ae}'..='\u{2ff}'
        | '\u{370}'..='\u{482}'
        | '\u{48a}'..='\u{58f}'
        | '\u{5d0}'..='\u{5ea}'
        | '\u{620}'..='\u{64a}'
        | '\u{1e00}'..='\u{1fff}'
        | '\u{2010}'..='\u{2027}'
        | '\u{2030}'..='\u{205e}'
        | '\u{20a0}'..='\u{20c0}'
        | '\u{2100}'..='\u{22ff}'
        | '\u{2500}'..='\u{25fc}'
        | '\u{2800}'..='\u{28ff}'
        | '\u{e000}'..='\u{f8ff}'
        | '\u{ff61}'..='\u{ff9d}'
        | '\u{fffd}' => Columns::One,
        '\u{3041}'..='\u{3096}'
        | '\u{309b}'..='\u{30ff}'
        | '\u{4e00}'..='\u{9fff}'
        | '\u{ac00}'..='\u{d7a3}'
        | '\u{ff01}'..='\u{ff60}' => Columns::Two,
        '\u{2300}'..='\u{24ff}'
        | '\u{25fd}'..='\u{27ff}'
        | '\u{2900}'..='\u{2bff}'
        | '\u{2e80}'..='\u{3029}'
        | '\u{3030}'..='\u{3040}'
        | '\u{3100}'..='\u{312f}'
        | '\u{3131}'..='\u{3163}'
        | '\u{3165}'..='\u{4dff}'
        | '\u{a000}'..='\u{a48c}'
        | '\u{f900}'..='\u{faff}'
        | '\u{fe30}'..='\u{fe6b}'
        | '\u{ffe0}'..='\u{ffe6}'
        | '\u{1f300}'..='\u{1f3fa}'
        | '\u{1f400}'..='\u{1faff}'
        | '\u{20000}'..='\u{3fffd}' => Columns::OneOrTwo,
        _ => return None,
    })
}

/// The beginning of a text, up to the first character that isn't simple or has no room.
#[derive(Clone, Copy, PartialEq, Eq, Debug)]
pub(crate) struct Run {
    /// Its length in bytes.
    pub(crate) length: usize,
    pub(crate) columns: usize,
    pub(crate) is_ascii: bool,
}

impl Run {
    /// The run of a text of ASCII.
    #[inline]
    pub(crate) fn of_ascii(length: usize) -> Run {
        Run {
            length,
            columns: length,
            is_ascii: true,
        }
    }

    /// The longest run at the beginning of a text that has room in `room` columns.
    pub(crate) fn new(text: &str, room: usize, widths: Widths) -> Run {
        if text.is_ascii() {
            return Run::of_ascii(text.len().min(room));
        }
        let (mut length, mut columns, mut is_ascii) = (0, 0, true);
        let mut is_measured = true;
        let is_narrow = !matches!(widths, Widths::Table(_));
        while let Some(character) = text[length..].chars().next() {
            if is_narrow && character.is_ascii() {
                let some = count_ascii(&text.as_bytes()[length..], room - columns);
                if some == 0 {
                    break;
                }
                (length, columns) = (length + some, columns + some);
                continue;
            }
            let Some(kind) = columns_of_simple(character) else {
                break;
            };
            let behind = length + character.len_utf8();
            let more = match kind.known(widths) {
                Some(more) => more,
                None if room == usize::MAX => {
                    is_measured = false;
                    0
                }
                None => text_width(&text[length..behind], widths),
            };
            if columns + more > room {
                break;
            }
            (length, columns) = (behind, columns + more);
            is_ascii &= character.is_ascii();
        }
        if !is_measured {
            columns = text_width(&text[..length], widths);
        }
        Run {
            length,
            columns,
            is_ascii,
        }
    }
}

/// How many leading bytes, at most `limit`, are ASCII.
#[inline]
fn count_ascii(bytes: &[u8], limit: usize) -> usize {
    let front = &bytes[..limit.min(bytes.len())];
    front
        .iter()
        .position(|byte| !byte.is_ascii())
        .unwrap_or(front.len())
}

/// Whether a text that isn't empty is one grapheme.
pub(crate) fn is_one_grapheme(text: &str) -> bool {
    text_width(text, Widths::OneColumn) == 1
}

/// The grapheme that was printed last.
#[derive(Default)]
pub(crate) struct Last {
    /// Its text, where it isn't simple.
    text: String,
    /// Its character, where it is simple.
    simple: Option<char>,
    /// Whether only texts have come since.
    pub(crate) is_live: bool,
}

impl Last {
    /// Becomes the last character of a text of simple ones.
    #[inline]
    pub(crate) fn set_simple(&mut self, text: &str) {
        (self.simple, self.is_live) = (text.chars().next_back(), true);
    }

    /// Becomes this grapheme.
    pub(crate) fn set(&mut self, grapheme: &str) {
        self.text.clear();
        self.text.push_str(grapheme);
        let only = grapheme.chars().next().filter(|it| is_simple(*it));
        self.simple = only.filter(|it| it.len_utf8() == grapheme.len());
        self.is_live = true;
    }

    /// Its text.
    pub(crate) fn text(&self) -> String {
        self.simple.map_or_else(|| self.text.clone(), String::from)
    }

    /// Whether a simple character can't join it.
    #[inline]
    pub(crate) fn is_apart_from_simple(&self) -> bool {
        !self.is_live || self.simple.is_some()
    }

    /// The grapheme with a text after it, where both are one.
    pub(crate) fn joined(&self, text: &str) -> Option<String> {
        let joined = || [&self.text(), text].concat();
        let joined = self.is_live.then(joined)?;
        is_one_grapheme(&joined).then_some(joined)
    }
}

#[cfg(test)]
mod tests {
    use super::*;

    #[test]
    fn simple_characters_are_graphemes_by_themselves() {
        let mut count = 0;
        for simple in ('\0'..=char::MAX).filter(|it| is_simple(*it)) {
            let text = format!("{simple}{simple}か{simple}x");
            assert_eq!(text_width(&text, Widths::OneColumn), 5, "{simple:?}");
            let columns = text_width(&simple.to_string(), Widths::Unicode);
            match columns_of_simple(simple).unwrap() {
                Columns::One => assert_eq!(columns, 1, "{simple:?}"),
                Columns::Two => assert_eq!(columns, 2, "{simple:?}"),
                Columns::OneOrTwo => assert!(columns == 1 || columns == 2, "{simple:?}"),
            }
            count += 1;
        }
        assert!(count > 100_000);
    }

    #[test]
    fn a_grapheme_is_joined_while_it_is_live() {
        let mut last = Last::default();
        assert_eq!(last.joined("\u{301}"), None);
        last.set_simple("abe");
        assert!(last.is_apart_from_simple());
        assert_eq!(last.joined("\u{301}").unwrap(), "e\u{301}");
        assert_eq!(last.joined("x"), None);
        last.set("👩\u{200d}");
        assert!(!last.is_apart_from_simple());
        assert_eq!(last.joined("🚀").unwrap(), "👩\u{200d}🚀");
        last.is_live = false;
        assert!(last.is_apart_from_simple());
        assert_eq!(last.joined("🚀"), None);
    }
}
