//! Lists of changes that are made in place.

use crate::attributes::{AttributeChange, Attributes, Blink, Hyperlink, Intensity, Underline};
use crate::change::{Change, CursorShape, CursorVisibility, LineAttribute, Position};
use crate::color::ColorAttribute;
use crate::error::Error;
use crate::ffi::{self, tk_attributes, tk_change, tk_list_counts};
use std::fmt;

/// A list of changes that is made in place: each call appends one, and
/// [`Surface::add`](crate::Surface::add) makes them in order.
///
/// No change has memory of its own, and the library is called once for the whole list. A list that
/// is [cleared](Changes::clear) keeps its memory for the next ones.
///
/// `write!` appends one text. It fails only where what it formats does, and then appends nothing.
///
/// ```
/// use tikeburo::{Changes, ColorAttribute, Error, Surface};
///
/// let mut surface = Surface::new(10, 2)?;
/// let mut changes = Changes::new();
/// for done in [0, 50, 100] {
///     changes.clear();
///     changes.move_to(0, 0).foreground(ColorAttribute::PaletteIndex(2));
///     write!(changes, "{done:>3} %").unwrap();
///     surface.add(&changes)?;
/// }
/// assert_eq!(surface.row(0).text()?.trim_end(), "100 %");
/// # Ok::<(), Error>(())
/// ```
#[derive(Clone, Default)]
pub struct Changes {
    pub(crate) list: Vec<tk_change>,
    /// The texts of all changes, one after another.
    pub(crate) texts: String,
    /// Whether the last change is a text that may still grow.
    pub(crate) is_open: bool,
    /// The pen after them, where they say the whole of it.
    pub(crate) pen: Option<Pen>,
}

/// A pen, as its fields for the library and its link.
#[derive(Clone)]
pub(crate) struct Pen {
    fields: tk_attributes,
    hyperlink: Option<Hyperlink>,
}

impl Changes {
    /// A list of no changes.
    #[must_use]
    pub fn new() -> Changes {
        Changes::default()
    }

    /// How many changes it has.
    #[must_use]
    pub fn len(&self) -> usize {
        self.list.len()
    }

    /// Whether it has none.
    #[must_use]
    pub fn is_empty(&self) -> bool {
        self.list.is_empty()
    }

    /// Drops all changes, and keeps their memory.
    pub fn clear(&mut self) {
        self.list.clear();
        self.texts.clear();
        self.is_open = false;
        self.pen = None;
    }

    /// Appends a change.
    pub fn push(&mut self, change: &Change) -> &mut Changes {
        match change {
            Change::Attribute(change) => self.attribute(change),
            Change::AllAttributes(attributes) => self.pen(attributes),
            Change::Text(text) => self.text(text),
            Change::ClearScreen(color) => self.clear_screen(*color),
            Change::ClearToEndOfLine(color) => self.clear_to_end_of_line(*color),
            Change::ClearToEndOfScreen(color) => self.clear_to_end_of_screen(*color),
            Change::CursorPosition { x, y } => self.position(*x, *y),
            Change::CursorColor(color) => self.cursor_color(*color),
            Change::CursorShape(shape) => self.cursor_shape(*shape),
            Change::CursorVisibility(visibility) => self.cursor_visibility(*visibility),
            Change::ScrollRegionUp {
                first_row,
                region_size,
                scroll_count,
            } => self.scroll_up(*first_row, *region_size, *scroll_count),
            Change::ScrollRegionDown {
                first_row,
                region_size,
                scroll_count,
            } => self.scroll_down(*first_row, *region_size, *scroll_count),
            Change::Title(title) => self.title(title),
            Change::LineAttribute(attribute) => self.line_attribute(*attribute),
        }
    }

    /// Prints a text at the cursor, as [`Change::Text`].
    pub fn text(&mut self, text: &str) -> &mut Changes {
        self.with_text(ffi::CHANGE_TEXT, text)
    }

    /// Prints a text as one with the texts that were appended just before it: so a text may come in
    /// parts, and what is a grapheme together is printed as one.
    ///
    /// ```
    /// use tikeburo::{Changes, Error, Surface};
    ///
    /// let mut surface = Surface::new(10, 1)?;
    /// let mut changes = Changes::new();
    /// for character in "cafe\u{301}".chars() {
    ///     changes.append(character.encode_utf8(&mut [0; 4]));
    /// }
    /// assert_eq!(changes.len(), 1);
    /// surface.add(&changes)?;
    /// assert_eq!(surface.cursor_position(), (4, 0));
    /// # Ok::<(), Error>(())
    /// ```
    #[inline]
    pub fn append(&mut self, text: &str) -> &mut Changes {
        match self.list.last_mut() {
            Some(last) if self.is_open => {
                last.first += text.len();
                self.texts.push_str(text);
            }
            _ if text.is_empty() => {}
            _ => {
                self.text(text);
                self.is_open = true;
            }
        }
        self
    }

    /// Prints a text, as `write!` passes it.
    ///
    /// # Errors
    ///
    /// What is formatted fails, and nothing is appended.
    pub fn write_fmt(&mut self, arguments: fmt::Arguments<'_>) -> fmt::Result {
        let begin = self.texts.len();
        let written = fmt::write(&mut self.texts, arguments);
        if written.is_ok() {
            let len = self.texts.len() - begin;
            self.with_numbers(ffi::CHANGE_TEXT, [len, 0, 0]);
        } else {
            self.texts.truncate(begin);
        }
        written
    }

    /// Moves the cursor, as far as it goes.
    pub fn position(&mut self, x: Position, y: Position) -> &mut Changes {
        let (column, from) = counted(x);
        let (row, row_from) = counted(y);
        self.with_numbers(ffi::CHANGE_MOVE, [column, row, from + 4 * row_from])
    }

    /// Moves the cursor to this column and row; past the last ones is at the last ones.
    pub fn move_to(&mut self, column: usize, row: usize) -> &mut Changes {
        self.position(Position::Absolute(column), Position::Absolute(row))
    }

    /// Moves the cursor by these columns and rows, below 0 to the left or up, as far as it goes.
    pub fn move_by(&mut self, columns: isize, rows: isize) -> &mut Changes {
        self.position(Position::Relative(columns), Position::Relative(rows))
    }

    /// Sets the whole pen, the attributes of coming texts. A link to an empty uri that has no id is
    /// none here: [`Changes::link`] gives one.
    pub fn pen(&mut self, attributes: &Attributes) -> &mut Changes {
        let fields = attributes.into();
        let hyperlink = attributes.hyperlink.clone();
        self.pen = Some(Pen { fields, hyperlink });
        let link = attributes.hyperlink.as_ref();
        let (text, id_len) = link.map_or(("", 0), Hyperlink::as_text);
        self.texts.push_str(text);
        self.item(tk_change {
            kind: ffi::CHANGE_PEN,
            attributes: fields,
            first: text.len(),
            second: id_len,
            ..tk_change::default()
        })
    }

    /// Makes the pen this one. Where the list has it already, since it set the whole pen or
    /// cleared, nothing is appended, and where the colour of texts or their intensity alone
    /// differs, the change of that. So each of many texts can say its pen.
    ///
    /// ```
    /// use tikeburo::{Attributes, Changes};
    ///
    /// let mut changes = Changes::new();
    /// let pen = Attributes { italic: true, ..Attributes::default() };
    /// for row in 0..3 {
    ///     changes.move_to(0, row).use_pen(&pen).text("slanted");
    /// }
    /// assert_eq!(changes.len(), 3 + 1 + 3);
    /// ```
    pub fn use_pen(&mut self, attributes: &Attributes) -> &mut Changes {
        let Some(pen) = &mut self.pen else {
            return self.pen(attributes);
        };
        if pen.hyperlink != attributes.hyperlink {
            return self.pen(attributes);
        }
        let fields = tk_attributes::from(attributes);
        let old = &pen.fields;
        let (foreground, intensity) = (fields.foreground, fields.intensity);
        let kind = match (foreground == old.foreground, intensity == old.intensity) {
            (true, true) if fields == *old => return self,
            (false, true) if fields == (tk_attributes { foreground, ..*old }) => {
                ffi::CHANGE_FOREGROUND
            }
            (true, false) if fields == (tk_attributes { intensity, ..*old }) => {
                ffi::CHANGE_INTENSITY
            }
            _ if pen.hyperlink.is_some() => return self.pen(attributes),
            _ => ffi::CHANGE_PEN,
        };
        pen.fields = fields;
        self.with_attributes(kind, fields)
    }

    /// Sets one attribute of the pen.
    pub fn attribute(&mut self, change: &AttributeChange) -> &mut Changes {
        self.pen = None;
        let mut fields = tk_attributes::default();
        let kind = match change {
            AttributeChange::Intensity(value) => {
                fields.intensity = *value as u8;
                ffi::CHANGE_INTENSITY
            }
            AttributeChange::Underline(value) => {
                fields.underline = *value as u8;
                ffi::CHANGE_UNDERLINE
            }
            AttributeChange::Italic(is_on) => {
                fields.italic = *is_on;
                ffi::CHANGE_ITALIC
            }
            AttributeChange::Blink(value) => {
                fields.blink = *value as u8;
                ffi::CHANGE_BLINK
            }
            AttributeChange::Reverse(is_on) => {
                fields.reverse = *is_on;
                ffi::CHANGE_REVERSE
            }
            AttributeChange::StrikeThrough(is_on) => {
                fields.strikethrough = *is_on;
                ffi::CHANGE_STRIKETHROUGH
            }
            AttributeChange::Invisible(is_on) => {
                fields.invisible = *is_on;
                ffi::CHANGE_INVISIBLE
            }
            AttributeChange::Foreground(color) => {
                fields.foreground = (*color).into();
                ffi::CHANGE_FOREGROUND
            }
            AttributeChange::Background(color) => {
                fields.background = (*color).into();
                ffi::CHANGE_BACKGROUND
            }
            AttributeChange::Hyperlink(Some(link)) => {
                return self.link_with_id(link.uri(), link.id().unwrap_or_default())
            }
            AttributeChange::Hyperlink(None) => return self.no_link(),
        };
        self.with_attributes(kind, fields)
    }

    /// Sets how bold coming texts are.
    pub fn intensity(&mut self, intensity: Intensity) -> &mut Changes {
        self.attribute(&AttributeChange::Intensity(intensity))
    }

    /// Sets how they are underlined.
    pub fn underline(&mut self, underline: Underline) -> &mut Changes {
        self.attribute(&AttributeChange::Underline(underline))
    }

    /// Sets how they blink.
    pub fn blink(&mut self, blink: Blink) -> &mut Changes {
        self.attribute(&AttributeChange::Blink(blink))
    }

    /// Sets whether they are slanted.
    pub fn italic(&mut self, is_on: bool) -> &mut Changes {
        self.attribute(&AttributeChange::Italic(is_on))
    }

    /// Sets whether their foreground and background are swapped.
    pub fn reverse(&mut self, is_on: bool) -> &mut Changes {
        self.attribute(&AttributeChange::Reverse(is_on))
    }

    /// Sets whether a line goes through them.
    pub fn strikethrough(&mut self, is_on: bool) -> &mut Changes {
        self.attribute(&AttributeChange::StrikeThrough(is_on))
    }

    /// Sets whether they are hidden.
    pub fn invisible(&mut self, is_on: bool) -> &mut Changes {
        self.attribute(&AttributeChange::Invisible(is_on))
    }

    /// Sets the colour of coming texts.
    pub fn foreground(&mut self, color: ColorAttribute) -> &mut Changes {
        self.attribute(&AttributeChange::Foreground(color))
    }

    /// Sets the background of coming texts.
    pub fn background(&mut self, color: ColorAttribute) -> &mut Changes {
        self.attribute(&AttributeChange::Background(color))
    }

    /// Gives them a link to this uri.
    pub fn link(&mut self, uri: &str) -> &mut Changes {
        self.link_with_id(uri, "")
    }

    /// Gives them a link to this uri with this id, as [`Hyperlink::new_with_id`] has one.
    pub fn link_with_id(&mut self, uri: &str, id: &str) -> &mut Changes {
        self.pen = None;
        self.texts.push_str(uri);
        self.texts.push_str(id);
        self.with_numbers(ffi::CHANGE_LINK, [uri.len() + id.len(), id.len(), 0])
    }

    /// Gives them no link.
    pub fn no_link(&mut self) -> &mut Changes {
        self.pen = None;
        self.with_numbers(ffi::CHANGE_NO_LINK, [0; 3])
    }

    /// Clears all and goes home. What is cleared, and the pen, have this background and no other
    /// attribute, here and at the other clears.
    pub fn clear_screen(&mut self, background: ColorAttribute) -> &mut Changes {
        self.with_background(ffi::CHANGE_CLEAR_SCREEN, background)
    }

    /// Clears from the cursor to its row's end.
    pub fn clear_to_end_of_line(&mut self, background: ColorAttribute) -> &mut Changes {
        self.with_background(ffi::CHANGE_CLEAR_TO_END_OF_LINE, background)
    }

    /// Clears this many columns from the cursor on, and goes after them. All is as after the other
    /// clears, but they may end anywhere: blanks of this background are printed. Those that the row
    /// has no room for go on in the next one, since a list doesn't know the surface's width.
    ///
    /// ```
    /// use tikeburo::{Changes, ColorAttribute, Error, Surface};
    ///
    /// let mut surface = Surface::new(8, 1)?;
    /// let mut changes = Changes::new();
    /// changes.text("abcdef").move_to(1, 0);
    /// changes.clear_columns(3, ColorAttribute::PaletteIndex(4));
    /// surface.add(&changes)?;
    /// assert_eq!(surface.row(0).text()?.trim_end(), "a   ef");
    /// # Ok::<(), Error>(())
    /// ```
    pub fn clear_columns(&mut self, count: usize, background: ColorAttribute) -> &mut Changes {
        self.use_pen(&blank(background));
        let mut left = count;
        while left > 0 {
            let blanks = &BLANKS[..left.min(BLANKS.len())];
            self.texts.push_str(blanks);
            left -= blanks.len();
        }
        self.with_numbers(ffi::CHANGE_TEXT, [count, 0, 0])
    }

    /// Clears from the cursor to the last row's end.
    pub fn clear_to_end_of_screen(&mut self, background: ColorAttribute) -> &mut Changes {
        self.with_background(ffi::CHANGE_CLEAR_TO_END_OF_SCREEN, background)
    }

    /// Takes `count` rows, at most all, off the top of the region of `rows` rows that begins at
    /// `first`, and adds as many default ones at its bottom.
    pub fn scroll_up(&mut self, first: usize, rows: usize, count: usize) -> &mut Changes {
        self.with_numbers(ffi::CHANGE_SCROLL_UP, [first, rows, count])
    }

    /// Takes them off the bottom, and adds as many at the top.
    pub fn scroll_down(&mut self, first: usize, rows: usize, count: usize) -> &mut Changes {
        self.with_numbers(ffi::CHANGE_SCROLL_DOWN, [first, rows, count])
    }

    /// Sets the title.
    pub fn title(&mut self, title: &str) -> &mut Changes {
        self.with_text(ffi::CHANGE_TITLE, title)
    }

    /// Shows or hides the cursor.
    pub fn cursor_visibility(&mut self, visibility: CursorVisibility) -> &mut Changes {
        let is_visible = visibility == CursorVisibility::Visible;
        self.with_numbers(ffi::CHANGE_CURSOR_VISIBILITY, [is_visible.into(), 0, 0])
    }

    /// Sets the cursor's shape.
    pub fn cursor_shape(&mut self, shape: CursorShape) -> &mut Changes {
        self.with_numbers(ffi::CHANGE_CURSOR_SHAPE, [shape as usize, 0, 0])
    }

    /// Sets the cursor's colour.
    pub fn cursor_color(&mut self, color: ColorAttribute) -> &mut Changes {
        let fields = tk_attributes {
            foreground: color.into(),
            ..tk_attributes::default()
        };
        self.with_attributes(ffi::CHANGE_CURSOR_COLOR, fields)
    }

    /// Sets how large the cursor's line is shown.
    pub fn line_attribute(&mut self, attribute: LineAttribute) -> &mut Changes {
        self.with_numbers(ffi::CHANGE_LINE_ATTRIBUTE, [attribute as usize, 0, 0])
    }

    /// Appends a change, whose text is there.
    fn item(&mut self, change: tk_change) -> &mut Changes {
        self.is_open = false;
        self.list.push(change);
        self
    }

    fn with_text(&mut self, kind: u8, text: &str) -> &mut Changes {
        self.texts.push_str(text);
        self.with_numbers(kind, [text.len(), 0, 0])
    }

    fn with_numbers(&mut self, kind: u8, [first, second, third]: [usize; 3]) -> &mut Changes {
        self.item(tk_change {
            kind,
            first,
            second,
            third,
            ..tk_change::default()
        })
    }

    fn with_attributes(&mut self, kind: u8, attributes: tk_attributes) -> &mut Changes {
        self.item(tk_change {
            kind,
            attributes,
            ..tk_change::default()
        })
    }

    fn with_background(&mut self, kind: u8, background: ColorAttribute) -> &mut Changes {
        let fields = tk_attributes {
            background: background.into(),
            ..tk_attributes::default()
        };
        let hyperlink = None;
        self.with_attributes(kind, fields).pen = Some(Pen { fields, hyperlink });
        self
    }

    /// Becomes the list that this call writes, and returns the number that it leads to. The call is
    /// passed a buffer of changes and its room, one of texts and its room, and where it writes how
    /// many there are. Where they are too short, it is made anew with as much as it says.
    pub(crate) fn read(
        &mut self,
        mut write: impl FnMut(*mut tk_change, usize, *mut u8, usize, *mut tk_list_counts) -> i32,
    ) -> Result<usize, Error> {
        let mut list = std::mem::take(&mut self.list);
        let mut texts = std::mem::take(&mut self.texts).into_bytes();
        self.clear();
        list.resize(list.capacity(), tk_change::default());
        texts.resize(texts.capacity(), 0);
        let mut counts = tk_list_counts::default();
        loop {
            let (room, len) = (list.len(), texts.len());
            let status = write(
                list.as_mut_ptr(),
                room,
                texts.as_mut_ptr(),
                len,
                &mut counts,
            );
            if status != ffi::SHORT {
                Error::check(status)?;
                break;
            }
            list.resize(room.max(counts.changes), tk_change::default());
            texts.resize(len.max(counts.texts), 0);
        }
        list.truncate(counts.changes);
        texts.truncate(counts.texts);
        self.texts = String::from_utf8(texts).map_err(|_| Error::Unreadable)?;
        self.list = list;
        Ok(counts.number)
    }

    /// What the library takes: the changes, and their texts one after another.
    pub(crate) fn as_parts(&self) -> (&[tk_change], &str) {
        (&self.list, &self.texts)
    }
}

const BLANKS: &str = "                                                                ";

/// The pen of what is cleared.
fn blank(background: ColorAttribute) -> Attributes {
    Attributes {
        background,
        ..Attributes::default()
    }
}

/// A position's number, and from where it is counted, as the header has it.
fn counted(position: Position) -> (usize, usize) {
    match position {
        Position::Absolute(place) => (place, 0),
        Position::Relative(distance) => (distance as usize, 1),
        Position::EndRelative(distance) => (distance, 2),
    }
}

/// Lists are equal that have the same changes.
impl PartialEq for Changes {
    fn eq(&self, other: &Changes) -> bool {
        self.list == other.list && self.texts == other.texts
    }
}

impl Eq for Changes {}

impl fmt::Debug for Changes {
    fn fmt(&self, f: &mut fmt::Formatter<'_>) -> fmt::Result {
        f.debug_struct("Changes")
            .field("len", &self.len())
            .finish_non_exhaustive()
    }
}

#[cfg(test)]
mod tests {
    use super::*;

    #[test]
    fn texts_stand_behind_one_another() {
        let mut changes = Changes::new();
        changes.text("か").italic(true).title("b").text("");
        let (list, texts) = changes.as_parts();
        assert_eq!(texts, "かb");
        let lens: Vec<_> = list.iter().map(|change| change.first).collect();
        assert_eq!(lens, [3, 0, 1, 0]);
        assert_eq!(changes.len(), 4);
    }

    #[test]
    fn what_is_written_is_one_text() {
        let (mut written, mut texts) = (Changes::new(), Changes::new());
        let done = 5;
        write!(written, "{done:>3} %か").unwrap();
        write!(written, "plain").unwrap();
        texts.text("  5 %か").text("plain");
        assert_eq!(written, texts);
    }

    #[test]
    fn what_fails_to_be_formatted_is_left_out() {
        struct Failing;
        impl fmt::Display for Failing {
            fn fmt(&self, _: &mut fmt::Formatter<'_>) -> fmt::Result {
                Err(fmt::Error)
            }
        }
        let mut changes = Changes::new();
        assert!(write!(changes, "text {Failing}").is_err());
        assert!(changes.is_empty());
        assert_eq!(changes, Changes::new());
    }

    #[test]
    fn a_cleared_list_is_a_new_one() {
        let mut changes = Changes::new();
        changes.scroll_up(1, usize::MAX, 1).text("か").text("x");
        changes.clear();
        assert_eq!(changes, Changes::new());
    }

    #[test]
    fn a_distance_may_be_negative() {
        let mut changes = Changes::new();
        changes.position(Position::Relative(-1), Position::EndRelative(2));
        let (list, _) = changes.as_parts();
        assert_eq!(
            [list[0].first, list[0].second, list[0].third],
            [usize::MAX, 2, 9]
        );
    }
}
