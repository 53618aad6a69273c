//! What programs ask for.

use crate::emulator::Emulator;
use std::fmt::Arguments;
use std::str;
use tikeburo::{ColorAttribute, RgbColor};

/// The most bytes of reports that wait to be taken. A report that has no room is dropped.
const MOST_BYTES: usize = 1 << 16;

impl Emulator {
    pub(crate) fn report(&mut self, report: Arguments<'_>) {
        let report = report.to_string();
        if self.reports.len() + report.len() <= MOST_BYTES {
            self.reports.extend_from_slice(report.as_bytes());
        }
    }

    /// Reports a VT220 with colours.
    pub(crate) fn report_device(&mut self) {
        self.report(format_args!("\x1b[?62;22c"));
    }

    /// Reports the kind of terminal, its version, and no keyboard.
    pub(crate) fn report_version(&mut self) {
        self.report(format_args!("\x1b[>1;0;0c"));
    }

    /// Reports the unit's number, which is 0.
    pub(crate) fn report_unit(&mut self) {
        self.report(format_args!("\x1bP!|00000000\x1b\\"));
    }

    pub(crate) fn report_name(&mut self) {
        let version = env!("CARGO_PKG_VERSION");
        self.report(format_args!("\x1bP>|tikeburo({version})\x1b\\"));
    }

    /// Reports that all is well, or the cursor's place, counted from 1, after a mark. Returns
    /// whether the kind of report is known.
    pub(crate) fn report_status(&mut self, kind: usize, mark: &str) -> bool {
        match kind {
            5 if mark.is_empty() => self.report(format_args!("\x1b[0n")),
            6 => {
                let (mut x, mut y) = (self.cursor.x + 1, self.cursor.y + 1);
                if self.cursor.has_origin_at_margins {
                    x = x.saturating_sub(self.columns.start);
                    y = y.saturating_sub(self.rows.start);
                }
                self.report(format_args!("\x1b[{mark}{y};{x}R"));
            }
            _ => return false,
        }
        true
    }

    pub(crate) fn report_size(&mut self) {
        let (width, height) = (self.width, self.height);
        self.report(format_args!("\x1b[8;{height};{width}t"));
    }

    /// Reports whether a mode is on, off or unknown.
    pub(crate) fn report_mode(&mut self, number: u16, mark: &str) {
        let is_on = match (mark, number) {
            ("?", 6) => Some(self.cursor.has_origin_at_margins),
            ("?", 25) => Some(self.settings.is_cursor_visible),
            ("?", 47 | 1047 | 1049) => Some(self.screens.is_alternate),
            ("?", _) => self.modes.private(number),
            _ => self.modes.ansi(number),
        };
        let state = is_on.map_or(0, |is_on| if is_on { 1 } else { 2 });
        self.report(format_args!("\x1b[{mark}{number};{state}$y"));
    }

    /// Sets colours of the palette, or reports them: the words are pairs of an index and a colour,
    /// or `?`. Returns whether all are known.
    pub(crate) fn change_palette(&mut self, words: &[&[u8]], end: &str) -> bool {
        words.chunks(2).fold(true, |is_known, pair| {
            let index = text(pair[0]).parse::<u8>().ok();
            let done = index.zip(pair.get(1)).and_then(|(index, color)| {
                let mut place = self.colors.palette[usize::from(index)];
                self.change_color(color, &mut place, format_args!("4;{index}"), end)?;
                self.colors.palette[usize::from(index)] = place;
                Some(())
            });
            done.is_some() && is_known
        })
    }

    /// Sets the colours of texts, the background and the cursor from this number on, or reports
    /// them. Returns whether all are known.
    pub(crate) fn change_colors(&mut self, first: usize, words: &[&[u8]], end: &str) -> bool {
        (first..).zip(words).fold(true, |is_known, (number, word)| {
            let done = self.colors.named(number).copied().and_then(|mut place| {
                self.change_color(word, &mut place, format_args!("{number}"), end)?;
                self.set_color(number, place)
            });
            done.is_some() && is_known
        })
    }

    /// Resets the colour of texts, the background or the cursor.
    pub(crate) fn reset_color(&mut self, number: usize) {
        if let Some(usual) = self.usual_colors.named(number).copied() {
            self.set_color(number, usual);
        }
        if number == 12 {
            self.settings.cursor_color = ColorAttribute::Default;
        }
    }

    /// Resets colours of the palette: those of these indices, or all.
    pub(crate) fn reset_palette(&mut self, words: &[&[u8]]) {
        if words.iter().all(|word| word.is_empty()) {
            self.colors.palette = self.usual_colors.palette;
        }
        for index in words
            .iter()
            .filter_map(|word| text(word).parse::<u8>().ok())
        {
            let index = usize::from(index);
            self.colors.palette[index] = self.usual_colors.palette[index];
        }
    }

    fn set_color(&mut self, number: usize, color: RgbColor) -> Option<()> {
        let place = self.colors.named(number)?;
        let is_other = *place != color;
        *place = color;
        if number == 12 && is_other {
            self.settings.cursor_color = color.into();
        }
        Some(())
    }

    /// Sets a colour to the one that a word names, or reports it where the word is `?`. Returns
    /// nothing where the word is neither.
    fn change_color(
        &mut self,
        word: &[u8],
        color: &mut RgbColor,
        name: Arguments<'_>,
        end: &str,
    ) -> Option<()> {
        if word == b"?" {
            let (red, green, blue) = color.to_tuple_rgb8();
            let [red, green, blue] = [red, green, blue].map(|part| 257 * u16::from(part));
            let report = format_args!("\x1b]{name};rgb:{red:04x}/{green:04x}/{blue:04x}{end}");
            self.report(report);
        } else {
            *color = crate::colors::parse(text(word))?;
        }
        Some(())
    }
}

/// The text of a word of an OSC, which is empty where the word is no UTF-8.
fn text(word: &[u8]) -> &str {
    str::from_utf8(word).unwrap_or_default()
}
