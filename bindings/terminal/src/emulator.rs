//! The state of a terminal, and its control characters.

use crate::batch::Batch;
use crate::colors::Colors;
use crate::cursor::Cursor;
use crate::edit::Part;
use crate::modes::Modes;
use crate::screens::Screens;
use crate::settings::Settings;
use crate::shift::Shift;
use crate::tabs::Tabs;
use crate::text::Last;
use crate::titles::Titles;
use crate::Scrollback;
use std::mem;
use std::ops::Range;
use tikeburo::{ColorAttribute, Error, Options, Surface};

/// A surface, and all that sequences change. The surface's cursor and pen are set only where the
/// next change needs them.
pub(crate) struct Emulator {
    pub(crate) surface: Surface,
    pub(crate) width: usize,
    pub(crate) height: usize,
    pub(crate) cursor: Cursor,
    pub(crate) settings: Settings,
    /// The settings that the surface has.
    shown_settings: Settings,
    /// The rows, and the columns, between the margins.
    pub(crate) rows: Range<usize>,
    pub(crate) columns: Range<usize>,
    pub(crate) screens: Screens,
    pub(crate) scrollback: Option<Scrollback>,
    /// Whether lines are wrapped anew in another width. Wrapped rows are marked for it.
    pub(crate) reflows: bool,
    pub(crate) modes: Modes,
    pub(crate) tabs: Tabs,
    pub(crate) titles: Titles,
    pub(crate) colors: Colors,
    /// The colours that a reset brings back.
    pub(crate) usual_colors: Colors,
    pub(crate) last: Last,
    pub(crate) batch: Batch,
    /// Cells that are still to be moved in a row, after the batch is made.
    pub(crate) shift: Option<Shift>,
    pub(crate) reports: Vec<u8>,
    pub(crate) bells: usize,
    pub(crate) unknown: usize,
    /// Whether the string that ends was short enough for `vte`, or nothing where it was cancelled.
    pub(crate) string_is_whole: Option<bool>,
    outcome: Result<(), Error>,
}

impl Emulator {
    pub(crate) fn new(width: usize, height: usize, options: Options) -> Result<Emulator, Error> {
        Ok(Emulator {
            surface: Surface::with_options(width, height, options)?,
            width,
            height,
            cursor: Cursor::default(),
            settings: Settings::default(),
            shown_settings: Settings::default(),
            rows: 0..height,
            columns: 0..width,
            screens: Screens::default(),
            scrollback: None,
            reflows: false,
            modes: Modes::default(),
            tabs: Tabs::new(width),
            titles: Titles::default(),
            colors: Colors::default(),
            usual_colors: Colors::default(),
            last: Last::default(),
            batch: Batch::default(),
            shift: None,
            reports: Vec::new(),
            bells: 0,
            unknown: 0,
            string_is_whole: None,
            outcome: Ok(()),
        })
    }

    /// Keeps the first error, which `finish` returns.
    pub(crate) fn attempt(&mut self, result: Result<(), Error>) {
        self.outcome = self.outcome.and(result);
    }

    pub(crate) fn count_unknown(&mut self) {
        self.unknown = self.unknown.saturating_add(1);
    }

    pub(crate) fn ring_bell(&mut self) {
        self.bells = self.bells.saturating_add(1);
    }

    /// Whether rows that scroll off are kept: only the main screen has a scrollback.
    #[inline]
    pub(crate) fn keeps_rows(&self) -> bool {
        self.scrollback.is_some() && !self.screens.is_alternate
    }

    /// Makes the changes that are still to be made.
    pub(crate) fn make(&mut self) {
        self.settle();
        let is_main = !self.screens.is_alternate;
        let scrollback = self.scrollback.as_mut().filter(|_| is_main);
        let made = self.batch.make(&mut self.surface, self.height, scrollback);
        self.attempt(made);
    }

    #[inline]
    pub(crate) fn make_if_full(&mut self) {
        if self.batch.is_full() {
            self.make();
        }
    }

    /// Makes all changes, and shows the cursor where it is. Returns the first error since the last
    /// call.
    pub(crate) fn finish(&mut self) -> Result<(), Error> {
        self.put_cursor();
        if self.settings != self.shown_settings {
            let shown = std::mem::replace(&mut self.shown_settings, self.settings);
            self.settings.append_to(self.batch.settings(), &shown);
        }
        if self.titles.take_change() {
            self.batch.settings().title(self.titles.window());
        }
        self.make();
        mem::replace(&mut self.outcome, Ok(()))
    }

    /// The terminal's column as the surface counts it: a wrap that is pending there is one more.
    #[inline]
    pub(crate) fn surface_column(&self) -> usize {
        let end = self.cursor.end();
        if end == self.width {
            end
        } else {
            self.cursor.x
        }
    }

    /// Moves the surface's cursor to the terminal's.
    #[inline]
    pub(crate) fn put_cursor(&mut self) {
        self.settle();
        self.batch.move_to(self.surface_column(), self.cursor.y);
    }

    /// Moves the surface's cursor to where a text is printed.
    #[inline(always)]
    pub(crate) fn put_cursor_to_print(&mut self) {
        self.settle();
        let place = (self.surface_column(), self.cursor.y);
        self.batch.move_to_print(place, &self.cursor.pen);
    }

    /// The options that the surface was made with.
    pub(crate) fn options(&self) -> Options {
        Options::new().widths(self.surface.widths())
    }

    /// The background that clears leave.
    pub(crate) fn background(&self) -> ColorAttribute {
        self.cursor.pen.background
    }

    pub(crate) fn do_control(&mut self, byte: u8) {
        self.last.is_live = false;
        match byte {
            0x07 => self.ring_bell(),
            0x08 => self.move_back(1),
            b'\t' => self.move_to_tab(1, true),
            b'\n'..=0x0c => {
                if self.modes.line_feed_new_line {
                    self.return_carriage();
                }
                self.feed_line();
            }
            b'\r' => self.return_carriage(),
            0x0e => self.cursor.charsets.shift(1),
            0x0f => self.cursor.charsets.shift(0),
            _ => {}
        }
    }

    /// Resets all but the scrollback.
    pub(crate) fn reset(&mut self) {
        self.cursor = Cursor::default();
        self.start_blank();
        // Rows that scrolled off before belong to the screen that was shown.
        self.make();
        self.settings = Settings::default();
        self.screens = Screens::default();
        self.modes = Modes::default();
        self.tabs = Tabs::new(self.width);
        self.titles.reset();
        self.colors = self.usual_colors.clone();
    }

    /// Clears the screen, resets the margins, and goes home.
    pub(crate) fn start_blank(&mut self) {
        self.reset_margins();
        self.cursor.go(0, 0);
        self.erase_in_screen(Part::All);
    }

    /// Resets what shows in no cell.
    pub(crate) fn reset_softly(&mut self) {
        let (x, y) = (self.cursor.x, self.cursor.y);
        self.modes.reset_softly();
        self.cursor = Cursor::default();
        self.cursor.go(x, y);
        self.batch.change_pen();
        self.settings.is_cursor_visible = true;
        self.screens.save(Cursor::default());
        self.reset_margins();
    }

    fn reset_margins(&mut self) {
        (self.rows, self.columns) = (0..self.height, 0..self.width);
    }
}
