//! The changes that are still to be made.

use crate::segments::Segments;
use crate::skips::Skips;
use crate::Scrollback;
use std::ops::Range;
use tikeburo::{Attributes, Changes, ColorAttribute, Error, Surface};

const MOST_CHANGES: usize = 4096;
const MOST_BYTES: usize = 1 << 16; // of texts

const LINE_END: &str = "\r\n";

/// A place that no cursor has.
const NOWHERE: (usize, usize) = (usize::MAX, usize::MAX);

/// Changes of a surface, in order, and where they leave its cursor.
#[derive(Default)]
pub(crate) struct Batch {
    changes: Changes,
    /// The column and the row. The column is the width where a wrap is pending.
    place: (usize, usize),
    /// Whether they leave the surface with the pen of coming texts.
    has_pen: bool,
    /// Whether the next change may become the first one of a list, and has to set the whole pen.
    begins_anew: bool,
    /// Whether the pen that they leave is known to be the default one.
    is_plain: bool,
    /// Whether that of coming texts is.
    is_pen_plain: bool,
    end: End,
    bytes: usize,
    skips: Skips,
    segments: Segments,
}

/// What the last change is.
#[derive(Clone, Copy, PartialEq, Eq, Default)]
enum End {
    /// No text, or a line end.
    #[default]
    Apart,
    /// A text that a simple character may follow.
    Simple,
    /// A text that a character may join.
    Complex,
}

impl Batch {
    /// Whether the list is long enough to be made before more changes come.
    #[inline]
    pub(crate) fn is_full(&self) -> bool {
        self.changes.len() >= MOST_CHANGES || self.bytes >= MOST_BYTES
    }

    /// Whether the next text is appended to the last change.
    pub(crate) fn ends_with_text(&self) -> bool {
        self.end != End::Apart
    }

    /// Whether the changes leave the surface's cursor at this place.
    #[inline]
    pub(crate) fn is_at(&self, x: usize, y: usize) -> bool {
        self.place == (x, y)
    }

    /// Whether the changes leave the surface's cursor in this row.
    #[inline]
    pub(crate) fn is_in_row(&self, y: usize) -> bool {
        self.place.1 == y
    }

    /// Starts anew from the surface's cursor, after a call that isn't a change of this list moved
    /// it. The surface's pen is unknown then.
    pub(crate) fn start_from(&mut self, surface: &Surface) {
        self.place = surface.cursor_position();
        self.has_pen = false;
    }

    /// Notes that the pen of coming texts may differ from the surface's.
    #[inline]
    pub(crate) fn change_pen(&mut self) {
        (self.has_pen, self.is_pen_plain) = (false, false);
    }

    /// Notes that the pen of coming texts is the default one.
    #[inline]
    pub(crate) fn reset_pen(&mut self) {
        (self.has_pen, self.is_pen_plain) = (false, true);
    }

    /// Keeps the next text from joining the last one, where a character of either might do so.
    pub(crate) fn cut(&mut self, is_simple: bool) {
        if !matches!((self.end, is_simple), (End::Apart, _) | (End::Simple, true)) {
            self.changes.move_to(self.place.0, self.place.1);
            self.end = End::Apart;
        }
    }

    /// Moves the cursor, where it isn't there: to the next row by a line end, which may be part of a
    /// text, and else by a change of its own.
    #[inline]
    pub(crate) fn move_to(&mut self, x: usize, y: usize) {
        if self.place == (x, y) {
            return;
        }
        if self.is_before(x, y) {
            return self.end_line(LINE_END, (x, y));
        }
        self.segments
            .begin((x, y), self.changes.len(), self.is_plain);
        self.changes.move_to(x, y);
        (self.place, self.end) = ((x, y), End::Apart);
    }

    /// Moves the cursor to where a text with this pen is printed. Where a line end begins a text, the
    /// pen comes first, so that both are one text.
    #[inline]
    pub(crate) fn move_to_print(&mut self, (x, y): (usize, usize), pen: &Attributes) {
        if self.end == End::Apart && self.is_before(x, y) {
            self.prepare_pen(pen);
        }
        self.move_to(x, y);
    }

    /// Whether this place is the beginning of the row below the cursor's.
    #[inline]
    fn is_before(&self, x: usize, y: usize) -> bool {
        x == 0 && self.place.1 < y && y - self.place.1 == 1
    }

    /// Prints a text with this pen, which leaves the cursor at this place.
    #[inline]
    pub(crate) fn print(
        &mut self,
        text: &str,
        pen: &Attributes,
        place: (usize, usize),
        is_simple: bool,
    ) {
        self.prepare_pen(pen);
        let end = if is_simple { End::Simple } else { End::Complex };
        self.append(text, place, end);
    }

    #[inline]
    fn prepare_pen(&mut self, pen: &Attributes) {
        if !self.has_pen {
            self.set_pen(pen);
            self.has_pen = true;
        }
    }

    fn set_pen(&mut self, pen: &Attributes) {
        let count = self.changes.len();
        if std::mem::take(&mut self.begins_anew) {
            self.changes.pen(pen);
        } else {
            self.changes.use_pen(pen);
        }
        if self.changes.len() > count {
            self.is_plain = self.is_pen_plain;
        }
    }

    /// Prints a line end, which leaves the cursor at this place.
    #[inline]
    pub(crate) fn end_line(&mut self, line_end: &str, place: (usize, usize)) {
        if place.1 == self.place.1 {
            self.segments.scroll_all();
        } else {
            self.segments.leave();
        }
        self.append(line_end, place, End::Apart);
    }

    /// Notes that the next text goes on in other rows, and may scroll them.
    pub(crate) fn leave_row(&mut self) {
        self.segments.scroll_all();
    }

    #[inline]
    fn append(&mut self, text: &str, place: (usize, usize), end: End) {
        self.changes.append(text);
        self.bytes += text.len();
        (self.place, self.end) = (place, end);
    }

    /// Notes that texts scroll `count` rows off the whole screen, and that nobody keeps them.
    #[inline]
    pub(crate) fn scroll_off(&mut self, count: usize) {
        if self.skips.scroll(count, self.changes.len()) {
            self.begin_anew();
        }
    }

    /// Lets the next changes stand by themselves: they set their own place and pen.
    fn begin_anew(&mut self) {
        (self.place, self.end) = (NOWHERE, End::Apart);
        (self.has_pen, self.begins_anew, self.is_plain) = (false, true, false);
    }

    pub(crate) fn scroll(&mut self, rows: Range<usize>, count: usize, is_up: bool) {
        self.end = End::Apart;
        self.skips.clear();
        self.segments.scroll(&rows);
        if is_up {
            self.changes.scroll_up(rows.start, rows.len(), count);
        } else {
            self.changes.scroll_down(rows.start, rows.len(), count);
        }
    }

    /// Clears these columns of a row of this width.
    pub(crate) fn erase(
        &mut self,
        y: usize,
        columns: Range<usize>,
        width: usize,
        background: ColorAttribute,
    ) {
        if columns.is_empty() {
            return;
        }
        self.move_to(columns.start, y);
        (self.has_pen, self.end) = (false, End::Apart);
        if columns.end == width {
            self.begins_anew = false;
            self.is_plain = background == ColorAttribute::Default;
            self.segments.clear_row();
            self.changes.clear_to_end_of_line(background);
        } else {
            self.set_pen(&Attributes {
                background,
                ..Attributes::default()
            });
            self.is_plain = false;
            self.changes.clear_columns(columns.len(), background);
            self.place.0 = columns.end;
            self.bytes += columns.len();
        }
    }

    /// Clears from a place to the end of the screen.
    pub(crate) fn erase_below(&mut self, x: usize, y: usize, background: ColorAttribute) {
        self.move_to(x, y);
        (self.has_pen, self.begins_anew) = (false, false);
        self.is_plain = background == ColorAttribute::Default;
        self.segments.leave();
        self.changes.clear_to_end_of_screen(background);
        self.end = End::Apart;
    }

    /// Drops all changes, since a clear of the whole screen follows and nobody keeps rows.
    pub(crate) fn drop_all(&mut self) {
        self.changes.clear();
        self.skips.clear();
        self.segments.clear();
        self.bytes = 0;
        self.begin_anew();
    }

    /// The list, for changes of what is shown beside cells.
    pub(crate) fn settings(&mut self) -> &mut Changes {
        self.end = End::Apart;
        &mut self.changes
    }

    /// Makes the changes. Rows that they scroll off go to the scrollback, where there is one.
    pub(crate) fn make(
        &mut self,
        surface: &mut Surface,
        height: usize,
        scrollback: Option<&mut Scrollback>,
    ) -> Result<(), Error> {
        if self.changes.is_empty() {
            return Ok(());
        }
        let skipped = if scrollback.is_some() {
            0
        } else {
            self.skips.count(height)
        };
        self.changes.remove(self.segments.undone(skipped));
        let made = match scrollback {
            Some(scrollback) => scrollback.make(surface, &self.changes),
            None => surface.add(&self.changes).map(drop),
        };
        self.changes.clear();
        self.skips.clear();
        self.segments.clear();
        self.is_plain = false;
        (self.bytes, self.end) = (0, End::Apart);
        if made.is_err() {
            self.start_from(surface);
        }
        made
    }
}
