//! The main and the alternate screen, and their size.

use crate::cursor::Cursor;
use crate::edit::Part;
use crate::emulator::Emulator;
use crate::reflow::reflow;
use crate::Scrollback;
use tikeburo::{Changes, Error, Surface};

/// The screen that is shown, and the hidden one.
#[derive(Default)]
pub(crate) struct Screens {
    pub(crate) is_alternate: bool,
    /// The hidden screen, or nothing where that is blank.
    hidden: Option<Surface>,
    /// The saved cursors of the main and the alternate screen.
    saved: [Cursor; 2],
}

impl Screens {
    /// Saves a cursor for the screen that is shown.
    pub(crate) fn save(&mut self, cursor: Cursor) {
        self.saved[usize::from(self.is_alternate)] = cursor;
    }
}

impl Emulator {
    pub(crate) fn save_cursor(&mut self) {
        self.screens.save(self.cursor.clone());
    }

    pub(crate) fn restore_cursor(&mut self) {
        let saved = &self.screens.saved[usize::from(self.screens.is_alternate)];
        self.cursor = saved.clone();
        self.fit_wrap();
        self.batch.change_pen();
    }

    /// Sets a mode that shows the alternate or the main screen. Returns whether it is one.
    pub(crate) fn set_screen(&mut self, mode: u16, is_alternate: bool) -> bool {
        let is_other = is_alternate != self.screens.is_alternate;
        match mode {
            47 => self.show_screen(is_alternate),
            1047 => {
                self.show_screen(is_alternate);
                if is_other && !is_alternate {
                    self.screens.hidden = None;
                }
            }
            1048 if is_alternate => self.save_cursor(),
            1048 => self.restore_cursor(),
            1049 if is_alternate => {
                if is_other {
                    self.save_cursor();
                }
                self.show_screen(true);
                self.erase_in_screen(Part::All);
            }
            1049 => {
                self.show_screen(false);
                self.restore_cursor();
            }
            _ => return false,
        }
        true
    }

    fn show_screen(&mut self, is_alternate: bool) {
        if is_alternate != self.screens.is_alternate {
            self.make();
            let shown = self.swap_screens();
            self.attempt(shown);
            self.screens.is_alternate = is_alternate;
        }
    }

    /// Shows the hidden screen, and keeps a copy of the one that is shown.
    fn swap_screens(&mut self) -> Result<(), Error> {
        let shown = Surface::copy_of(&self.surface)?;
        let other = match self.screens.hidden.replace(shown) {
            Some(hidden) => hidden,
            None => Surface::with_options(self.width, self.height, self.options())?,
        };
        self.surface.draw_from_screen(&other, 0, 0).map(drop)
    }

    /// Takes another size, of at least one column and row.
    pub(crate) fn resize(&mut self, width: usize, height: usize) -> Result<(), Error> {
        self.make();
        let size = (width, height);
        let screens = &mut self.screens;
        let (is_alternate, reflows) = (screens.is_alternate, self.reflows);
        let [main, alternate] = &mut screens.saved;
        let scrollback = self.scrollback.as_mut().filter(|_| !is_alternate);
        resize(
            &mut self.surface,
            &mut self.cursor,
            scrollback,
            size,
            reflows && !is_alternate,
        )?;
        if let Some(hidden) = &mut screens.hidden {
            let cursor = if is_alternate {
                &mut *main
            } else {
                &mut *alternate
            };
            let scrollback = self.scrollback.as_mut().filter(|_| is_alternate);
            resize(hidden, cursor, scrollback, size, reflows && is_alternate)?;
        }
        for cursor in [main, alternate, &mut self.cursor] {
            cursor.fit(width, height);
        }
        (self.width, self.height) = size;
        (self.rows, self.columns) = (0..height, 0..width);
        self.tabs.resize(width);
        self.last.is_live = false;
        self.batch.start_from(&self.surface);
        Ok(())
    }
}

/// Gives a screen another size. Rows are cut at the bottom, and where the cursor's would be, rows
/// scroll off at the top instead.
fn resize(
    surface: &mut Surface,
    cursor: &mut Cursor,
    scrollback: Option<&mut Scrollback>,
    (width, height): (usize, usize),
    reflows: bool,
) -> Result<(), Error> {
    let (old_width, old_height) = surface.dimensions();
    if reflows && width != old_width {
        return reflow(surface, cursor, scrollback, (width, height));
    }
    let above = (cursor.y + 1).saturating_sub(height);
    if above > 0 {
        let mut changes = Changes::new();
        changes.scroll_up(0, old_height, above);
        match scrollback {
            Some(scrollback) => scrollback.make(surface, &changes)?,
            None => surface.add(&changes).map(drop)?,
        }
        cursor.y -= above;
    }
    surface.resize(width, height)
}
