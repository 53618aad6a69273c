//! What each sequence does.

use crate::edit::Part;
use crate::emulator::Emulator;
use crate::params::{Marks, Params};
use crate::titles::Which;
use tikeburo::{Attributes, CursorShape, Hyperlink};

impl Emulator {
    /// Does what a `CSI` says, which has these parameters and marks and ends with this byte.
    pub(crate) fn do_csi(&mut self, params: &Params, marks: Marks, last: u8) {
        let was_live = std::mem::take(&mut self.last.is_live);
        let is_known = if marks != Marks::NONE {
            self.set_or_report(params, marks, last)
        } else {
            match last {
                b'm' => {
                    self.set_attributes(params);
                    true
                }
                b'b' => {
                    self.last.is_live = was_live;
                    self.repeat(params.count());
                    true
                }
                b'h' | b'l' => self.set_modes(params, last == b'h'),
                _ => self.move_cursor(params, last) || self.edit(params, last),
            }
        };
        if !is_known {
            self.count_unknown();
        }
    }

    fn set_attributes(&mut self, params: &Params) {
        match params.plain() {
            Some([0]) => return self.reset_attributes(),
            Some(numbers) => self.cursor.pen.apply_sgr(numbers.chunks(1)),
            None => self.cursor.pen.apply_sgr(params.iter()),
        }
        self.batch.change_pen();
    }

    /// Resets all attributes but the link, as most sequences of this kind do.
    fn reset_attributes(&mut self) {
        let hyperlink = self.cursor.pen.hyperlink.take();
        if hyperlink.is_none() {
            self.batch.reset_pen();
        } else {
            self.batch.change_pen();
        }
        self.cursor.pen = Attributes {
            hyperlink,
            ..Attributes::default()
        };
    }

    /// Does what an escape sequence says, which has this intermediate byte, or 0, and ends with
    /// this one.
    pub(crate) fn do_escape(&mut self, mark: u8, last: u8) {
        self.last.is_live = false;
        match (mark, last) {
            (0, b'7') => self.save_cursor(),
            (0, b'8') => self.restore_cursor(),
            (0, b'=' | b'>') => self.modes.application_keypad = last == b'=',
            (0, b'D') => self.feed_line(),
            (0, b'E') => self.end_line(),
            (0, b'H') => self.tabs.set(self.cursor.x, true),
            (0, b'M') => self.feed_line_back(),
            (0, b'Z') => self.report_device(),
            (0, b'c') => self.reset(),
            // Locks the rows above the cursor, which then don't scroll.
            (0, b'l') => self.rows = self.cursor.y..self.rows.end.max(self.cursor.y + 1),
            (0, b'm') => self.rows = 0..self.rows.end,
            (0, b'g') => self.ring_bell(),
            (b'#', b'8') => self.fill_screen(),
            (b'(', set) => self.cursor.charsets.designate(0, set),
            (b')', set) => self.cursor.charsets.designate(1, set),
            // The end of a string, and sets of characters that nothing shifts to.
            (0, b'\\') | (b'%', b'@' | b'G') | (b'*' | b'+', _) => {}
            _ => self.count_unknown(),
        }
    }

    /// Does what an `OSC` of these words says, the last of which may be cut. A report gets the same
    /// end. Returns whether the sequence is known.
    pub(crate) fn do_osc(&mut self, words: &[&[u8]], is_whole: bool, end: &str) -> bool {
        match words {
            [b"0", title @ ..] => self.set_title(Which::Both, title, is_whole),
            [b"1", title @ ..] => self.set_title(Which::Icon, title, is_whole),
            [b"2", title @ ..] => self.set_title(Which::Window, title, is_whole),
            [b"4", colors @ ..] => return self.change_palette(colors, end),
            [b"8", params, uri @ ..] => return self.set_link(params, uri, is_whole),
            [b"10", colors @ ..] => return self.change_colors(10, colors, end),
            [b"11", colors @ ..] => return self.change_colors(11, colors, end),
            [b"12", colors @ ..] => return self.change_colors(12, colors, end),
            [b"104", indices @ ..] => self.reset_palette(indices),
            [b"110" | b"111" | b"112", ..] => {
                self.reset_color(usize::from(words[0][2] - b'0') + 10);
            }
            _ => return false,
        }
        true
    }

    /// Moves the cursor by a CSI that ends with this byte. Returns whether it is known.
    fn move_cursor(&mut self, params: &Params, last: u8) -> bool {
        let count = params.count();
        match last {
            b'A' => self.move_up(count),
            b'B' | b'e' => self.move_down(count),
            b'C' | b'a' => self.move_forward(count),
            b'D' => self.move_back(count),
            b'E' => {
                self.move_down(count);
                self.return_carriage();
            }
            b'F' => {
                self.move_up(count);
                self.return_carriage();
            }
            b'G' | b'`' => self.go_to_column(count - 1),
            b'H' | b'f' => self.go_from_origin(params.number(1).max(1) - 1, count - 1),
            b'I' => self.move_to_tab(count, true),
            b'Z' => self.move_to_tab(count, false),
            b'd' => self.go_to_row(count - 1),
            b's' if self.modes.left_right_margins => {
                self.set_column_margins(params.number(0), params.number(1));
            }
            b's' => self.save_cursor(),
            b'u' => self.restore_cursor(),
            _ => return false,
        }
        true
    }

    /// Clears or moves cells, sets margins, or reports, by a CSI that ends with this byte. Returns
    /// whether it is known.
    fn edit(&mut self, params: &Params, last: u8) -> bool {
        let (first, count) = (params.number(0), params.count());
        match (last, first) {
            (b'@', _) => self.insert_columns(count),
            (b'P', _) => self.delete_columns(count),
            (b'X', _) => self.erase_columns(count),
            (b'J' | b'K', _) => return self.erase_part(first, last),
            (b'L' | b'M', _) => self.shift_rows(count, last == b'M'),
            (b'S' | b'T', _) => self.scroll(self.rows.clone(), count, last == b'S'),
            (b'c', 0) => self.report_device(),
            (b'g', 0) => self.tabs.set(self.cursor.x, false),
            (b'g', 3) => self.tabs.clear(),
            (b'i', 0 | 4 | 5) => {} // there is no printer
            (b'n', _) => return self.report_status(first, ""),
            (b'r', _) => self.set_row_margins(first, params.number(1)),
            (b't', 18) => self.report_size(),
            (b't', 22 | 23) => return self.save_title(first == 22, params.number(1)),
            _ => return false,
        }
        true
    }

    /// Does what a CSI with marks says. Returns whether it is known.
    fn set_or_report(&mut self, params: &Params, marks: Marks, last: u8) -> bool {
        let first = params.number(0);
        match (marks.before, marks.behind, last) {
            (b'?', 0, b'h' | b'l') => return self.set_private_modes(params, last == b'h'),
            (b'?', 0, b'J' | b'K') => return self.erase_part(first, last),
            (b'?', 0, b'n') => return self.report_status(first, "?"),
            (0, b'!', b'p') => self.reset_softly(),
            (0, b'$', b'p') => self.report_mode(first as u16, ""),
            (b'?', b'$', b'p') => self.report_mode(first as u16, "?"),
            (0, b' ', b'q') => return self.set_cursor_shape(first),
            (b'>', 0, b'c') if first == 0 => self.report_version(),
            (b'=', 0, b'c') if first == 0 => self.report_unit(),
            (b'>', 0, b'q') if first == 0 => self.report_name(),
            _ => return false,
        }
        true
    }

    fn erase_part(&mut self, number: usize, last: u8) -> bool {
        match (Part::new(number), last) {
            (Some(part), b'J') => self.erase_in_screen(part),
            (Some(part), _) => self.erase_in_row(part),
            (None, b'J') if number == 3 => self.forget_scrollback(),
            _ => return false,
        }
        true
    }

    fn set_cursor_shape(&mut self, number: usize) -> bool {
        let shape = u8::try_from(number).map(CursorShape::try_from);
        let Ok(Ok(shape)) = shape else {
            return false;
        };
        self.settings.cursor_shape = shape;
        true
    }

    fn set_modes(&mut self, params: &Params, is_on: bool) -> bool {
        // Some terminals show a plainer cursor by 34.
        let set = |number| self.modes.set_ansi(number, is_on) || number == 34;
        let known = params.iter().map(|param| param[0]).map(set);
        known.fold(true, |all, is_known| all & is_known)
    }

    fn set_private_modes(&mut self, params: &Params, is_on: bool) -> bool {
        let set = |number| self.set_private_mode(number, is_on);
        let known = params.iter().map(|param| param[0]).map(set);
        known.fold(true, |all, is_known| all & is_known)
    }

    fn set_private_mode(&mut self, number: u16, is_on: bool) -> bool {
        match number {
            // The width is the embedder's, and stays.
            3 if self.modes.column_switch => self.start_blank(),
            // A smooth scroll has no meaning here.
            3 | 4 => {}
            6 => {
                self.cursor.has_origin_at_margins = is_on;
                self.go_from_origin(0, 0);
            }
            25 => self.settings.is_cursor_visible = is_on,
            69 => {
                self.modes.left_right_margins = is_on;
                self.columns = 0..self.width;
                self.fit_wrap();
            }
            _ => return self.set_screen(number, is_on) || self.modes.set_private(number, is_on),
        }
        true
    }

    fn set_title(&mut self, which: Which, words: &[&[u8]], is_whole: bool) {
        let title = text(words);
        let title = if is_whole {
            &title
        } else {
            title.trim_end_matches('\u{fffd}')
        };
        self.titles.set(which, title);
    }

    /// Saves the titles, or restores those that the number names. Returns whether it names any.
    fn save_title(&mut self, is_save: bool, number: usize) -> bool {
        let Some(which) = Which::new(number) else {
            return false;
        };
        if is_save {
            self.titles.save();
        } else {
            self.titles.restore(which);
        }
        true
    }

    /// Gives coming texts a link, with the id that the params name, or none where its uri is empty
    /// or cut.
    fn set_link(&mut self, params: &[u8], words: &[&[u8]], is_whole: bool) -> bool {
        let uri = text(words);
        let link = (is_whole && !uri.is_empty()).then(|| {
            let mut params = params.rsplit(|byte| *byte == b':');
            let id = params.find_map(|param| param.strip_prefix(b"id="));
            Hyperlink::new_with_id(uri, text(&[id.unwrap_or_default()]))
        });
        self.cursor.pen.hyperlink = link;
        self.batch.change_pen();
        is_whole
    }

    fn forget_scrollback(&mut self) {
        self.make();
        if let Some(scrollback) = &mut self.scrollback {
            let forgotten = scrollback.forget();
            self.attempt(forgotten);
        }
    }
}

/// The words of an OSC as one text.
fn text(words: &[&[u8]]) -> String {
    String::from_utf8_lossy(&words.join(&b';')).into_owned()
}
