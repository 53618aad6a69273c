//! Lists of changes that are values, and the changes of a list as values again.

use crate::attributes::{AttributeChange, Attributes, Hyperlink};
use crate::change::{Change, Position};
use crate::changes::Changes;
use crate::ffi::{self, tk_change};
use std::mem;
use std::ops::Range;

impl Changes {
    /// Its changes in order, each as a value of its own.
    ///
    /// ```
    /// use tikeburo::{Change, Changes};
    ///
    /// let mut changes = Changes::new();
    /// changes.text("a").title("b");
    /// let values: Vec<Change> = changes.iter().collect();
    /// assert_eq!(values, [Change::Text("a".into()), Change::Title("b".into())]);
    /// ```
    pub fn iter(&self) -> impl Iterator<Item = Change> + '_ {
        let (list, mut texts) = self.as_parts();
        list.iter().map(move |change| {
            let len = if has_text(change.kind) {
                change.first
            } else {
                0
            };
            let (text, others) = texts.split_at(len);
            texts = others;
            value(change, text)
        })
    }

    /// Drops the changes of these ranges of indices, which rise and don't overlap, and keeps the
    /// others in order: for whoever finds that later changes undo what these do. Indices past the
    /// last change are passed over.
    ///
    /// ```
    /// use tikeburo::{Changes, ColorAttribute};
    ///
    /// let mut changes = Changes::new();
    /// changes.title("old").text("gone").title("new").text("gone, too");
    /// changes.clear_screen(ColorAttribute::Default).text("shown");
    /// changes.remove(&[0..2, 3..4]);
    /// let mut wanted = Changes::new();
    /// wanted.title("new").clear_screen(ColorAttribute::Default).text("shown");
    /// assert_eq!(changes, wanted);
    /// ```
    pub fn remove(&mut self, ranges: &[Range<usize>]) {
        if ranges.is_empty() {
            return;
        }
        let len = self.list.len();
        let texts = mem::take(&mut self.texts);
        self.texts.reserve(texts.len());
        let (mut at, mut text_at, mut kept) = (0, 0, 0);
        for range in ranges.iter().chain([&(len..len)]) {
            let begin = range.start.clamp(at, len);
            let end = range.end.clamp(begin, len);
            let bytes = text_length(&self.list[at..begin]);
            self.texts.push_str(&texts[text_at..text_at + bytes]);
            text_at += bytes + text_length(&self.list[begin..end]);
            self.list.copy_within(at..begin, kept);
            kept += begin - at;
            at = end;
        }
        self.list.truncate(kept);
        self.is_open = false;
        self.pen = None;
    }
}

impl<'a> Extend<&'a Change> for Changes {
    fn extend<I: IntoIterator<Item = &'a Change>>(&mut self, changes: I) {
        for change in changes {
            self.push(change);
        }
    }
}

impl Extend<Change> for Changes {
    fn extend<I: IntoIterator<Item = Change>>(&mut self, changes: I) {
        for change in changes {
            self.push(&change);
        }
    }
}

impl<'a> FromIterator<&'a Change> for Changes {
    fn from_iter<I: IntoIterator<Item = &'a Change>>(changes: I) -> Changes {
        let mut list = Changes::new();
        list.extend(changes);
        list
    }
}

impl FromIterator<Change> for Changes {
    fn from_iter<I: IntoIterator<Item = Change>>(changes: I) -> Changes {
        let mut list = Changes::new();
        list.extend(changes);
        list
    }
}

/// How many bytes the texts of changes have.
fn text_length(changes: &[tk_change]) -> usize {
    let with_text = changes.iter().filter(|change| has_text(change.kind));
    with_text.map(|change| change.first).sum()
}

/// Whether a change of this kind has a text.
fn has_text(kind: u8) -> bool {
    matches!(
        kind,
        ffi::CHANGE_TEXT | ffi::CHANGE_TITLE | ffi::CHANGE_LINK | ffi::CHANGE_PEN
    )
}

/// The change of this struct and its text.
fn value(change: &tk_change, text: &str) -> Change {
    let [first, second, third] = [change.first, change.second, change.third];
    let attributes = &change.attributes;
    match change.kind {
        ffi::CHANGE_TEXT => Change::Text(text.into()),
        ffi::CHANGE_TITLE => Change::Title(text.into()),
        ffi::CHANGE_PEN => {
            let link = (!text.is_empty()).then(|| Hyperlink::of_text(text, second));
            Change::AllAttributes(Attributes::new(attributes, link))
        }
        ffi::CHANGE_MOVE => Change::CursorPosition {
            x: position(third % 4, first),
            y: position(third / 4, second),
        },
        ffi::CHANGE_CLEAR_SCREEN => Change::ClearScreen(attributes.background.into()),
        ffi::CHANGE_CLEAR_TO_END_OF_LINE => Change::ClearToEndOfLine(attributes.background.into()),
        ffi::CHANGE_CLEAR_TO_END_OF_SCREEN => {
            Change::ClearToEndOfScreen(attributes.background.into())
        }
        ffi::CHANGE_SCROLL_UP => Change::ScrollRegionUp {
            first_row: first,
            region_size: second,
            scroll_count: third,
        },
        ffi::CHANGE_SCROLL_DOWN => Change::ScrollRegionDown {
            first_row: first,
            region_size: second,
            scroll_count: third,
        },
        ffi::CHANGE_CURSOR_VISIBILITY => Change::CursorVisibility((first != 0).into()),
        ffi::CHANGE_CURSOR_SHAPE => Change::CursorShape(numbered(first).unwrap_or_default()),
        ffi::CHANGE_CURSOR_COLOR => Change::CursorColor(attributes.foreground.into()),
        ffi::CHANGE_LINE_ATTRIBUTE => {
            let usual = crate::change::LineAttribute::SingleWidthLine;
            Change::LineAttribute(numbered(first).unwrap_or(usual))
        }
        _ => Change::Attribute(attribute(change, text)),
    }
}

/// The variant of this number.
fn numbered<T: TryFrom<u8>>(number: usize) -> Option<T> {
    T::try_from(u8::try_from(number).ok()?).ok()
}

/// A column or a row, counted as the header says.
fn position(from: usize, place: usize) -> Position {
    match from {
        1 => Position::Relative(place as isize),
        2 => Position::EndRelative(place),
        _ => Position::Absolute(place),
    }
}

/// A change of one attribute.
fn attribute(change: &tk_change, text: &str) -> AttributeChange {
    let read = Attributes::new(&change.attributes, None);
    match change.kind {
        ffi::CHANGE_LINK => {
            AttributeChange::Hyperlink(Some(Hyperlink::of_text(text, change.second)))
        }
        ffi::CHANGE_INTENSITY => AttributeChange::Intensity(read.intensity),
        ffi::CHANGE_UNDERLINE => AttributeChange::Underline(read.underline),
        ffi::CHANGE_BLINK => AttributeChange::Blink(read.blink),
        ffi::CHANGE_ITALIC => AttributeChange::Italic(read.italic),
        ffi::CHANGE_REVERSE => AttributeChange::Reverse(read.reverse),
        ffi::CHANGE_STRIKETHROUGH => AttributeChange::StrikeThrough(read.strikethrough),
        ffi::CHANGE_INVISIBLE => AttributeChange::Invisible(read.invisible),
        ffi::CHANGE_FOREGROUND => AttributeChange::Foreground(read.foreground),
        ffi::CHANGE_BACKGROUND => AttributeChange::Background(read.background),
        _ => AttributeChange::Hyperlink(None),
    }
}

#[cfg(test)]
mod tests {
    use super::*;
    use crate::attributes::{Blink, Intensity, Underline};
    use crate::change::{CursorShape, CursorVisibility, LineAttribute};
    use crate::color::{ColorAttribute, RgbColor};

    #[test]
    fn changes_of_ranges_are_dropped_with_their_texts() {
        let list = |texts: &[&str]| {
            let mut changes = Changes::new();
            for text in texts {
                changes.text(text).move_to(0, 0);
            }
            changes
        };
        let all = list(&["a", "か", "c", "d"]);
        for (ranges, wanted) in [
            (&[][..], list(&["a", "か", "c", "d"])),
            (&[0..1, 1..2], list(&["か", "c", "d"])),
            (&[2..4, 6..8], list(&["a", "c"])),
            (&[0..0, 4..6, 9..12], list(&["a", "か", "d"])),
            (&[0..4, 4..99], list(&[])),
        ] {
            let mut changes = all.clone();
            changes.remove(ranges);
            assert_eq!(changes, wanted, "{ranges:?}");
        }
    }

    #[test]
    fn changes_are_read_as_they_were_appended() {
        let color = ColorAttribute::TrueColorWithPaletteFallback(RgbColor::new_8bpc(1, 2, 3), 4);
        let link = Some(Hyperlink::new("uri"));
        let with_id = Some(Hyperlink::new_with_id("uri", "か"));
        let pen = Attributes {
            underline: Underline::Curly,
            hyperlink: link.clone(),
            ..Attributes::default()
        };
        let all = [
            Change::Text("か".into()),
            Change::Title("title".into()),
            Change::AllAttributes(pen),
            Change::AllAttributes(Attributes {
                hyperlink: with_id.clone(),
                ..Attributes::default()
            }),
            Change::AllAttributes(Attributes::default()),
            Change::ClearScreen(color),
            Change::ClearToEndOfLine(color),
            Change::ClearToEndOfScreen(ColorAttribute::Default),
            Change::CursorPosition {
                x: Position::Relative(-3),
                y: Position::EndRelative(2),
            },
            Change::CursorPosition {
                x: Position::Absolute(3),
                y: Position::Relative(1),
            },
            Change::CursorColor(color),
            Change::CursorShape(CursorShape::SteadyBar),
            Change::CursorVisibility(CursorVisibility::Hidden),
            Change::CursorVisibility(CursorVisibility::Visible),
            Change::ScrollRegionUp {
                first_row: 1,
                region_size: 2,
                scroll_count: 3,
            },
            Change::ScrollRegionDown {
                first_row: 4,
                region_size: 5,
                scroll_count: 6,
            },
            Change::LineAttribute(LineAttribute::DoubleWidthLine),
            AttributeChange::Intensity(Intensity::Half).into(),
            AttributeChange::Underline(Underline::Dashed).into(),
            AttributeChange::Blink(Blink::Rapid).into(),
            AttributeChange::Italic(true).into(),
            AttributeChange::Reverse(true).into(),
            AttributeChange::StrikeThrough(false).into(),
            AttributeChange::Invisible(true).into(),
            AttributeChange::Foreground(color).into(),
            AttributeChange::Background(color).into(),
            AttributeChange::Hyperlink(link).into(),
            AttributeChange::Hyperlink(with_id).into(),
            AttributeChange::Hyperlink(None).into(),
        ];
        let list: Changes = all.iter().collect();
        assert!(list.iter().eq(all));
    }
}
