//! Texts that are printed.

use crate::emulator::Emulator;
use crate::text::{is_one_grapheme, is_simple, Run};
use tikeburo::{text_width, Attributes, Cell, Error, Widths};

/// The most bytes of a grapheme: a mark with which it would have more is left out.
const LONGEST_GRAPHEME: usize = 128;

impl Emulator {
    /// Prints a text that has no control characters of ASCII. `is_ascii` says whether all of it is
    /// ASCII.
    pub(crate) fn print_text(&mut self, text: &str, is_ascii: bool) {
        let is_plain = self.cursor.charsets.is_ascii();
        if is_ascii && is_plain && self.last.is_apart_from_simple() {
            self.print_simple(text, Run::of_ascii(text.len()));
        } else if is_plain {
            self.print_graphemes(text);
        } else {
            self.print_graphemes(&self.cursor.charsets.translate(text));
        }
    }

    /// Prints simple characters at once, as many as have room, and others one at a time.
    fn print_graphemes(&mut self, text: &str) {
        let mut rest = text;
        while let Some(first) = rest.chars().next() {
            if !self.last.is_apart_from_simple() || !is_simple(first) {
                let (character, behind) = rest.split_at(first.len_utf8());
                self.print_character(first, character);
                rest = behind;
                continue;
            }
            let run = self.next_run(rest);
            if run.length > 0 {
                self.print_simple(&rest[..run.length], run);
                rest = &rest[run.length..];
            } else if !self.make_room(self.columns_of(&rest[..first.len_utf8()])) {
                rest = &rest[first.len_utf8()..];
            }
        }
    }

    /// The run of simple characters at the beginning of a text that is printed next: the one that
    /// has room in the row, or a whole one, where the library has to measure it.
    fn next_run(&self, text: &str) -> Run {
        let widths = self.surface.widths();
        let is_whole = matches!(widths, Widths::Table(_)) || text.is_ascii();
        let room = self.right_edge() - self.cursor.end();
        Run::new(text, if is_whole { usize::MAX } else { room }, widths)
    }

    /// Prints a text of simple characters, which is this run and isn't empty.
    #[inline]
    fn print_simple(&mut self, text: &str, run: Run) {
        if !self.last.is_live {
            self.batch.cut(true);
        }
        let end = self.cursor.end() + run.columns;
        if end <= self.right_edge() && !self.modes.insert {
            self.put(text, run.columns, true);
            self.last.set_simple(text);
        } else {
            self.print_wrapped(text, run, end);
        }
    }

    /// Prints simple characters that go on in the next row, or are inserted.
    fn print_wrapped(&mut self, text: &str, run: Run, end: usize) {
        let rows = (end - 1) / self.width;
        if run.is_ascii && self.wraps_alike() && self.feeds_alike(rows) {
            self.put_cursor_to_print();
            self.batch.leave_row();
            let y = (self.cursor.y + rows).min(self.height - 1);
            let scrolled = self.cursor.y + rows - y;
            self.put_to(text, end - rows * self.width, y, true);
            self.last.set_simple(text);
            self.note_scroll(scrolled);
        } else {
            self.print_by_rows(text);
        }
    }

    /// Whether texts go on in the next row as they do on the surface.
    fn wraps_alike(&self) -> bool {
        let is_plain = !self.modes.insert && !self.reflows;
        is_plain && self.modes.auto_wrap && self.columns.len() == self.width
    }

    /// Prints simple characters row by row.
    fn print_by_rows(&mut self, text: &str) {
        let mut rest = text;
        while let Some(first) = rest.chars().next() {
            let room = self.right_edge() - self.cursor.end();
            let run = self.run_in_row(rest, room);
            if run.length > 0 {
                let piece = &rest[..run.length];
                self.insert(run.columns);
                self.put(piece, run.columns, true);
                self.last.set_simple(piece);
                rest = &rest[run.length..];
            } else if room == 0 && !self.modes.auto_wrap && rest.is_ascii() && rest.len() > 1 {
                rest = &rest[rest.len() - 1..]; // the last character stays in the last column
            } else if !self.make_room(self.columns_of(&rest[..first.len_utf8()])) {
                rest = &rest[first.len_utf8()..];
            }
        }
    }

    /// The run at the beginning of a text that has room in `room` columns. Cells are inserted between
    /// the margins alone: in insert mode a run that begins before them ends there, or is one
    /// character.
    fn run_in_row(&self, text: &str, room: usize) -> Run {
        let widths = self.surface.widths();
        let before = self.columns.start.saturating_sub(self.cursor.x);
        if !self.modes.insert || before == 0 {
            return Run::new(text, room, widths);
        }
        let run = Run::new(text, room.min(before), widths);
        if run.length > 0 {
            return run;
        }
        let first = text.chars().next().map_or(0, char::len_utf8);
        Run::new(&text[..first], room, widths)
    }

    /// Goes to a place with room for `columns`: to the next row, or back. Returns whether there is
    /// one.
    fn make_room(&mut self, columns: usize) -> bool {
        if columns > self.columns.len() {
            return false;
        }
        if self.modes.auto_wrap {
            if self.reflows {
                let marked = self.mark_wrap();
                self.attempt(marked);
            }
            self.return_carriage();
            self.feed_line();
        } else {
            self.go(self.right_edge() - columns, self.cursor.y);
        }
        true
    }

    /// Moves cells to the right by `columns`, in insert mode.
    fn insert(&mut self, columns: usize) {
        if self.modes.insert {
            self.insert_columns(columns);
        }
    }

    /// Prints a text of `columns`, which have room in the cursor's row.
    #[inline]
    fn put(&mut self, text: &str, columns: usize, is_simple: bool) {
        self.put_cursor_to_print();
        self.put_to(text, self.cursor.end() + columns, self.cursor.y, is_simple);
    }

    /// Prints a text that ends before this column of this row.
    #[inline]
    fn put_to(&mut self, text: &str, end: usize, y: usize, is_simple: bool) {
        let is_full = end == self.right_edge();
        self.batch
            .print(text, &self.cursor.pen, (end, y), is_simple);
        self.cursor.go(end - usize::from(is_full), y);
        self.cursor.is_wrap_pending = is_full;
    }

    /// Prints a character that may join what is before it.
    fn print_character(&mut self, character: char, text: &str) {
        if character.is_control() {
            self.count_unknown();
        } else if let Some(joined) = self.last.joined(text) {
            self.join(joined, text);
        } else if text_width(text, Widths::Unicode) == 0 {
            let joined = self.join_cell(text);
            self.attempt(joined);
        } else {
            self.print_grapheme(text);
        }
    }

    /// Prints a grapheme that isn't simple, or follows one.
    fn print_grapheme(&mut self, text: &str) {
        let columns = self.cell_columns_of(text);
        let has_room = self.cursor.end() + columns <= self.right_edge();
        if !has_room && !self.make_room(columns) {
            return;
        }
        self.insert(columns);
        let is_simple = text.chars().all(is_simple);
        if !self.last.is_live {
            self.batch.cut(is_simple);
        }
        self.put(text, columns, is_simple);
        self.last.set(text);
    }

    /// Prints a mark that joins the last grapheme, so that both are `joined`.
    fn join(&mut self, joined: String, mark: &str) {
        let columns = self.cell_columns_of(&self.last.text());
        let start = self.cursor.end() - columns;
        let joined_columns = self.cell_columns_of(&joined);
        let has_room = start + joined_columns <= self.right_edge();
        if joined.len() > LONGEST_GRAPHEME || !has_room {
            return;
        }
        let more = joined_columns.saturating_sub(columns);
        if more > 0 && self.modes.insert {
            self.insert_columns(more);
            self.settle();
        }
        if joined_columns >= columns && self.batch.ends_with_text() {
            self.put_to(mark, start + joined_columns, self.cursor.y, false);
        } else {
            self.cursor.go(start, self.cursor.y);
            self.put(&joined, joined_columns, false);
        }
        self.last.set(&joined);
    }

    /// Adds a mark to the cell before the cursor, where both are one grapheme of the cell's width.
    /// Any other mark is left out, since it has no column of its own.
    fn join_cell(&mut self, mark: &str) -> Result<(), Error> {
        let Some((column, cell)) = self.cell_before()? else {
            return Ok(());
        };
        let joined = [cell.str(), mark].concat();
        let is_one = joined.len() <= LONGEST_GRAPHEME && is_one_grapheme(&joined);
        if is_one && self.cell_columns_of(&joined) == cell.width() {
            self.replace_cell(column, &joined, cell.width(), cell.attrs());
        }
        Ok(())
    }

    /// Marks the cell before the cursor as one after which the row is wrapped.
    fn mark_wrap(&mut self) -> Result<(), Error> {
        let wrapped = |pen: &Attributes| Attributes {
            wrapped: true,
            ..pen.clone()
        };
        if self.last.is_live {
            let (text, pen) = (self.last.text(), wrapped(&self.cursor.pen));
            let columns = self.cell_columns_of(&text);
            self.replace_cell(self.cursor.end() - columns, &text, columns, &pen);
        } else if let Some((column, cell)) = self.cell_before()? {
            let pen = wrapped(cell.attrs());
            self.replace_cell(column, cell.str(), cell.width(), &pen);
        }
        Ok(())
    }

    /// The cell before the cursor, and its column.
    fn cell_before(&mut self) -> Result<Option<(usize, Cell)>, Error> {
        let Some(column) = self.cursor.end().checked_sub(1) else {
            return Ok(None);
        };
        self.make();
        let row = self.surface.row(self.cursor.y);
        let before = column.checked_sub(1).map(|before| row.cell(before));
        let wide = before.transpose()?.filter(|cell| cell.width() == 2);
        Ok(Some(match wide {
            Some(cell) => (column - 1, cell),
            None => (column, row.cell(column)?),
        }))
    }

    /// Prints a grapheme at a column of the cursor's row. The cursor stays.
    fn replace_cell(&mut self, column: usize, text: &str, columns: usize, pen: &Attributes) {
        self.settle();
        self.print_at((column, self.cursor.y), text, columns, pen);
    }

    /// Prints the last grapheme `count` times more, but no more often than the screen has cells.
    /// After anything but a text there is none.
    pub(crate) fn repeat(&mut self, count: usize) {
        if self.last.is_live {
            let count = count.min(self.width * self.height);
            let text = self.last.text().repeat(count);
            self.print_graphemes(&text);
        }
    }

    /// The columns of a text, as the surface measures them.
    fn columns_of(&self, text: &str) -> usize {
        if text.is_ascii() {
            return text.len();
        }
        text_width(text, self.surface.widths())
    }

    /// The columns of a grapheme's cell.
    fn cell_columns_of(&self, grapheme: &str) -> usize {
        self.columns_of(grapheme).clamp(1, 2)
    }
}
