//! Composes what is written to show a screen.

use super::error::Error;
use super::line::Line;
use super::terminal::Terminal;
use super::version::Version;
use super::{rows, scrolls, Renderer, Shown};
use crate::change::{CursorVisibility, LineAttribute};
use crate::screen::Screen;
use crate::surface::{self, Surface};
use std::io::Write;
use std::sync::Arc;

impl Renderer {
    pub(super) fn new_surface(&self) -> Result<Surface, crate::Error> {
        let (width, height) = self.options.size();
        let options = surface::Options::new().widths(self.options.widths);
        let mut surface = Surface::with_options(width, height, options)?;
        surface.keep_changes(false);
        Ok(surface)
    }

    /// Appends to the terminal's bytes what it lacks of a screen.
    pub(super) fn compose(&mut self, screen: &Screen) -> Result<(), Error> {
        let wanted = self.read(screen)?;
        let shown = self.shown.take();
        if shown.is_none() {
            self.recover();
        }
        let begin = self.terminal.bytes.len();
        if self.options.synchronized {
            self.terminal.push("\x1b[?2026h");
        }
        let opened = self.terminal.bytes.len();
        self.write_state(screen)?;
        let shown = match shown {
            Some(shown) => shown.lines,
            None => self.cleared(),
        };
        self.write_lines(shown, &wanted.lines);
        self.write_cursor(screen, &wanted.lines);
        self.shown = Some(wanted);
        if self.terminal.bytes.len() == opened {
            self.terminal.bytes.truncate(begin);
        } else if self.options.synchronized {
            self.terminal.push("\x1b[?2026l");
        }
        Ok(())
    }

    /// Ends what a write that failed, or somebody else, may have left.
    pub(super) fn recover(&mut self) {
        self.terminal.recover();
        if self.options.synchronized {
            self.terminal.push("\x1b[?2026l");
        }
    }

    /// Clears the terminal, and returns what it shows then.
    fn cleared(&mut self) -> Vec<Arc<Line>> {
        self.terminal.clear();
        let usual = (!self.options.line_attributes).then_some(LineAttribute::SingleWidthLine);
        let (width, height) = self.options.size();
        let blank = Arc::new(Line::blank(width, usual));
        vec![blank; height]
    }

    /// What the terminal shows of a screen. Of the screen that was shown last only those rows are
    /// read that may have changed.
    pub(super) fn read(&mut self, screen: &Screen) -> Result<Shown, crate::Error> {
        let version = Version::of(screen);
        let shown = self.shown.as_ref();
        let old = shown.map_or(&[][..], |shown| &shown.lines);
        let changed = match shown {
            Some(shown) => shown.version.changed_rows(screen)?,
            None => None,
        };
        let changed = changed.unwrap_or_default();
        let mut lines = Vec::with_capacity(self.options.height);
        for row in 0..self.options.height {
            let is_same = changed.get(row) == Some(&false);
            let line = match old.get(row) {
                Some(line) if is_same => Arc::clone(line),
                _ => {
                    let line = Line::read(screen, row, &mut self.buffer, &self.options)?;
                    shared(line, old, &lines)
                }
            };
            lines.push(line);
        }
        Ok(Shown { lines, version })
    }

    /// Writes what isn't of the rows, but a cursor that is to be shown.
    fn write_state(&mut self, screen: &Screen) -> Result<(), crate::Error> {
        let Terminal {
            settings, bytes, ..
        } = &mut self.terminal;
        settings.set_title(&screen.title()?, bytes);
        settings.set_color(screen.cursor_color(), bytes);
        settings.set_shape(screen.cursor_shape(), bytes);
        if screen.cursor_visibility() == CursorVisibility::Hidden {
            settings.set_visibility(CursorVisibility::Hidden, bytes);
        }
        Ok(())
    }

    fn write_lines(&mut self, mut shown: Vec<Arc<Line>>, wanted: &[Arc<Line>]) {
        let (terminal, options) = (&mut self.terminal, &self.options);
        if !options.line_attributes {
            for _ in 0..scrolls::MOST {
                let Some(scroll) = scrolls::find(&shown, wanted) else {
                    break;
                };
                rows::scroll(terminal, options, &scroll, &mut shown, wanted);
            }
        }
        rows::write(terminal, options, &shown, wanted);
    }

    /// Puts the cursor where the screen has it. One after the last column is in the last one.
    fn write_cursor(&mut self, screen: &Screen, lines: &[Arc<Line>]) {
        let (column, row) = screen.cursor_position();
        let row = row.min(lines.len() - 1);
        let column = column.min(lines[row].len() - 1);
        self.terminal.move_to(column, row);
        let Terminal {
            settings, bytes, ..
        } = &mut self.terminal;
        settings.set_visibility(screen.cursor_visibility(), bytes);
    }

    /// Writes the terminal's bytes, if there are any.
    pub(super) fn send<W>(&mut self, out: &mut W) -> Result<(), Error>
    where
        W: Write + ?Sized,
    {
        if !self.terminal.bytes.is_empty() {
            out.write_all(&self.terminal.bytes)?;
            out.flush()?;
            self.terminal.bytes.clear();
        }
        Ok(())
    }
}

/// A row, which is one of these where one is equal, so that they are compared by their place.
fn shared(line: Line, old: &[Arc<Line>], new: &[Arc<Line>]) -> Arc<Line> {
    let beside = old.get(new.len()).into_iter();
    let mut rows = beside.chain(old).chain(new);
    let equal = rows.find(|row| ***row == line);
    equal.map_or_else(|| Arc::new(line), Arc::clone)
}
