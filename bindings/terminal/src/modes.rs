//! Modes that programs set.

/// Which events of the mouse a program wants reported.
#[derive(Clone, Copy, PartialEq, Eq, Hash, Debug, Default)]
#[non_exhaustive]
pub enum MouseTracking {
    /// None.
    #[default]
    Off,
    /// Presses of buttons (`?9`).
    Presses,
    /// Presses and releases (`?1000`).
    Buttons,
    /// These, and moves while a button is pressed (`?1002`).
    Drags,
    /// These, and all moves (`?1003`).
    Moves,
}

/// How events of the mouse are reported.
#[derive(Clone, Copy, PartialEq, Eq, Hash, Debug, Default)]
#[non_exhaustive]
pub enum MouseEncoding {
    /// `CSI M` and three bytes.
    #[default]
    Bytes,
    /// `CSI M` and three characters in UTF-8 (`?1005`).
    Utf8,
    /// `CSI <`, numbers, and `M` or `m` (`?1006`).
    Sgr,
    /// `CSI`, numbers, and `M` (`?1015`).
    Decimal,
    /// As [`MouseEncoding::Sgr`], in pixels (`?1016`).
    SgrPixels,
}

/// The modes that a program has set by `CSI h`, `CSI ? h` and their like, for whoever sends it
/// keys, pastes and events of the mouse.
///
/// ```
/// use tikeburo_terminal::{MouseEncoding, MouseTracking, Terminal};
///
/// let mut terminal = Terminal::new(80, 24)?;
/// terminal.feed(b"\x1b[?1h\x1b[?1006;1000h")?;
/// let modes = terminal.modes();
/// assert!(modes.application_cursor_keys && !modes.bracketed_paste);
/// assert_eq!(modes.mouse_tracking, MouseTracking::Buttons);
/// assert_eq!(modes.mouse_encoding, MouseEncoding::Sgr);
/// # Ok::<(), tikeburo::Error>(())
/// ```
#[derive(Clone, Copy, PartialEq, Eq, Hash, Debug)]
#[non_exhaustive]
pub struct Modes {
    /// Cursor keys send `ESC O` and a letter (`?1`).
    pub application_cursor_keys: bool,
    /// The keypad sends escape sequences (`ESC =`, `?66`).
    pub application_keypad: bool,
    /// The colours of the whole screen are swapped (`?5`).
    pub reverse_screen: bool,
    /// Texts wrap at the end of a row (`?7`). On at first.
    pub auto_wrap: bool,
    /// The cursor blinks (`?12`).
    pub cursor_blink: bool,
    /// Texts move the cells after them to the right (`4`).
    pub insert: bool,
    /// A line feed goes to the first column, and Enter sends CR and LF (`20`).
    pub line_feed_new_line: bool,
    /// Which events of the mouse are reported.
    pub mouse_tracking: MouseTracking,
    /// How they are reported.
    pub mouse_encoding: MouseEncoding,
    /// Changes of focus are reported (`?1004`).
    pub focus_reports: bool,
    /// The mouse's wheel sends cursor keys on the alternate screen (`?1007`).
    pub alternate_scroll: bool,
    /// The meta key sets the eighth bit (`?1034`).
    pub eight_bit_meta: bool,
    /// A paste stands between `CSI 200 ~` and `CSI 201 ~` (`?2004`).
    pub bracketed_paste: bool,
    /// The program is in the middle of a frame, which is best shown once this ends (`?2026`).
    pub synchronized_output: bool,
    /// There are margins at the left and the right (`?69`).
    pub left_right_margins: bool,
    /// A switch between 80 and 132 columns (`?3`) clears the screen, and sets the margins to the
    /// whole of it (`?40`). The width stays.
    pub column_switch: bool,
}

impl Default for Modes {
    fn default() -> Modes {
        Modes {
            application_cursor_keys: false,
            application_keypad: false,
            reverse_screen: false,
            auto_wrap: true,
            cursor_blink: false,
            insert: false,
            line_feed_new_line: false,
            mouse_tracking: MouseTracking::Off,
            mouse_encoding: MouseEncoding::Bytes,
            focus_reports: false,
            alternate_scroll: false,
            eight_bit_meta: false,
            bracketed_paste: false,
            synchronized_output: false,
            left_right_margins: false,
            column_switch: false,
        }
    }
}

impl Modes {
    /// Sets the ANSI mode of this number. Returns whether it is known.
    pub(crate) fn set_ansi(&mut self, number: u16, is_on: bool) -> bool {
        self.ansi_flag(number).map(|flag| *flag = is_on).is_some()
    }

    /// Sets the private mode of this number. Returns whether it is known.
    pub(crate) fn set_private(&mut self, number: u16, is_on: bool) -> bool {
        if let Some(tracking) = mouse_tracking(number) {
            self.mouse_tracking = if is_on { tracking } else { MouseTracking::Off };
        } else if let Some(encoding) = mouse_encoding(number) {
            if is_on {
                self.mouse_encoding = encoding;
            } else if self.mouse_encoding == encoding {
                self.mouse_encoding = MouseEncoding::Bytes;
            }
        } else {
            let flag = self.private_flag(number);
            return flag.map(|flag| *flag = is_on).is_some();
        }
        true
    }

    /// Whether the ANSI mode of this number is on, where it is known.
    pub(crate) fn ansi(mut self, number: u16) -> Option<bool> {
        self.ansi_flag(number).copied()
    }

    /// Whether the private mode of this number is on, where it is known.
    pub(crate) fn private(mut self, number: u16) -> Option<bool> {
        let tracking = mouse_tracking(number).map(|it| it == self.mouse_tracking);
        let encoding = mouse_encoding(number).map(|it| it == self.mouse_encoding);
        let flag = self.private_flag(number).copied();
        tracking.or(encoding).or(flag)
    }

    /// Resets the modes that a soft reset does.
    pub(crate) fn reset_softly(&mut self) {
        *self = Modes {
            application_cursor_keys: false,
            application_keypad: false,
            auto_wrap: true,
            insert: false,
            left_right_margins: false,
            ..*self
        };
    }

    fn ansi_flag(&mut self, number: u16) -> Option<&mut bool> {
        match number {
            4 => Some(&mut self.insert),
            20 => Some(&mut self.line_feed_new_line),
            _ => None,
        }
    }

    fn private_flag(&mut self, number: u16) -> Option<&mut bool> {
        Some(match number {
            1 => &mut self.application_cursor_keys,
            5 => &mut self.reverse_screen,
            7 => &mut self.auto_wrap,
            12 => &mut self.cursor_blink,
            40 => &mut self.column_switch,
            66 => &mut self.application_keypad,
            69 => &mut self.left_right_margins,
            1004 => &mut self.focus_reports,
            1007 => &mut self.alternate_scroll,
            1034 => &mut self.eight_bit_meta,
            2004 => &mut self.bracketed_paste,
            2026 => &mut self.synchronized_output,
            _ => return None,
        })
    }
}

fn mouse_tracking(number: u16) -> Option<MouseTracking> {
    Some(match number {
        9 => MouseTracking::Presses,
        1000 => MouseTracking::Buttons,
        1002 => MouseTracking::Drags,
        1003 => MouseTracking::Moves,
        _ => return None,
    })
}

fn mouse_encoding(number: u16) -> Option<MouseEncoding> {
    Some(match number {
        1005 => MouseEncoding::Utf8,
        1006 => MouseEncoding::Sgr,
        1015 => MouseEncoding::Decimal,
        1016 => MouseEncoding::SgrPixels,
        _ => return None,
    })
}

#[cfg(test)]
mod tests {
    use super::*;

    #[test]
    fn what_is_set_is_read() {
        let mut modes = Modes::default();
        for number in [
            1, 5, 12, 40, 66, 69, 1003, 1004, 1006, 1007, 1034, 2004, 2026,
        ] {
            assert_eq!(modes.private(number), Some(false), "{number}");
            assert!(modes.set_private(number, true));
            assert_eq!(modes.private(number), Some(true), "{number}");
            assert!(modes.set_private(number, false));
            assert_eq!(modes.private(number), Some(false), "{number}");
        }
        assert_eq!(modes, Modes::default());
        assert!(!modes.set_private(9999, true) && !modes.set_ansi(9999, true));
        assert_eq!((modes.private(9999), modes.ansi(9999)), (None, None));
        assert!(modes.set_ansi(4, true) && modes.insert);
        assert_eq!(modes.ansi(4), Some(true));
    }

    #[test]
    fn the_end_of_another_encoding_changes_nothing() {
        let mut modes = Modes::default();
        modes.set_private(1006, true);
        modes.set_private(1005, false);
        assert_eq!(modes.mouse_encoding, MouseEncoding::Sgr);
    }
}
