//! Cuts the bytes that a program writes into texts, control characters and sequences.

use crate::emulator::Emulator;
use crate::params::{self, Params, Sequence};
use std::{mem, str};

const ESCAPE: u8 = 0x1b;
const CANCEL: u8 = 0x18;
const SUBSTITUTE: u8 = 0x1a;
const BELL: u8 = 0x07;
const DELETE: u8 = 0x7f;
const REPLACEMENT: &str = "\u{fffd}";

/// What the next byte belongs to.
#[derive(Clone, Copy, PartialEq, Eq, Default)]
enum State {
    /// Texts and control characters.
    #[default]
    Ground,
    /// What `ESC` begins.
    Escape,
    /// An escape sequence, after its intermediate byte.
    Intermediate,
    /// What `CSI` begins.
    Csi,
    /// The string that `OSC` begins.
    Osc,
    /// The string of `DCS`, `SOS`, `PM` or `APC`, which is skipped.
    Skipped,
}

/// What is known between two chunks. Texts and most sequences are read here, and those that are cut
/// or rare by `vte`, which is in its ground state whenever this is.
#[derive(Default)]
pub(crate) struct Input {
    parser: vte::Parser,
    params: Params,
    state: State,
    cut: Vec<u8>,  // the beginning of a character
    length: usize, // of a string so far
}

impl Input {
    /// Takes bytes, cut anywhere. Bytes that are no UTF-8 become replacement characters.
    pub(crate) fn feed(&mut self, bytes: &[u8], emulator: &mut Emulator) {
        if self.cut.is_empty() {
            return self.take_all(bytes, emulator);
        }
        let mut joined = mem::take(&mut self.cut);
        joined.extend_from_slice(bytes);
        self.take_all(&joined, emulator);
    }

    fn take_all(&mut self, bytes: &[u8], emulator: &mut Emulator) {
        let mut rest = bytes;
        loop {
            let error = match str::from_utf8(rest) {
                Ok(text) => return self.take(text, emulator),
                Err(error) => error,
            };
            let (good, behind) = rest.split_at(error.valid_up_to());
            self.take(str::from_utf8(good).unwrap_or_default(), emulator);
            let length = error.error_len();
            let (broken, others) = behind.split_at(length.unwrap_or(behind.len()));
            self.take_broken(broken, length.is_none(), emulator);
            rest = others;
            if rest.is_empty() {
                return;
            }
        }
    }

    fn take(&mut self, text: &str, emulator: &mut Emulator) {
        let (mut rest, mut bytes) = (text, text.as_bytes());
        while let Some(first) = bytes.first() {
            let length = match self.state {
                State::Ground if is_control(*first) => self.control(bytes, emulator),
                State::Ground => {
                    let (length, is_ascii) = measure_text(bytes);
                    emulator.print_text(&rest[..length], is_ascii);
                    length
                }
                State::Skipped => self.skip(bytes, emulator),
                State::Osc if !is_control(*first) => self.string(bytes, emulator),
                State::Csi if is_parameter(first) => self.parameters(bytes, emulator),
                _ => self.sequence(*first, emulator),
            };
            rest = &rest[length..];
            bytes = rest.as_bytes();
            emulator.make_if_full();
        }
    }

    /// Takes bytes that are no UTF-8, and may be the beginning of a character that is cut.
    fn take_broken(&mut self, bytes: &[u8], is_cut: bool, emulator: &mut Emulator) {
        if matches!(self.state, State::Escape | State::Intermediate | State::Csi) {
            self.sequence(bytes[0], emulator); // the sequence ends there
        }
        match self.state {
            State::Skipped => {}
            State::Ground if is_cut => self.cut.extend_from_slice(bytes),
            State::Ground => emulator.print_text(REPLACEMENT, false),
            _ => {
                self.string(bytes, emulator);
            }
        }
    }

    /// Takes a control character, or the sequence that it begins, and returns its length.
    fn control(&mut self, bytes: &[u8], emulator: &mut Emulator) -> usize {
        match *bytes {
            [ESCAPE, ..] => match params::read(bytes, &mut self.params) {
                Some((Sequence::Csi(marks, last), length)) => {
                    emulator.do_csi(&self.params, marks, last);
                    return length;
                }
                Some((Sequence::Escape(mark, last), length)) => {
                    emulator.do_escape(mark, last);
                    return length;
                }
                None => self.advance(ESCAPE, State::Escape, emulator),
            },
            [b'\r', b'\n', ..] => {
                emulator.end_line();
                return 2;
            }
            [DELETE, ..] | [] => {}
            [byte, ..] => emulator.do_control(byte),
        }
        1
    }

    /// Takes the parameters of a CSI, and returns their length.
    fn parameters(&mut self, bytes: &[u8], emulator: &mut Emulator) -> usize {
        let length = bytes.iter().take_while(|byte| is_parameter(byte)).count();
        for byte in &bytes[..length] {
            self.parser.advance(emulator, *byte);
        }
        length
    }

    /// Takes the bytes of an OSC up to a control character, and returns their length.
    fn string(&mut self, bytes: &[u8], emulator: &mut Emulator) -> usize {
        let (length, _) = measure_text(bytes);
        self.length += length;
        for byte in &bytes[..length] {
            self.parser.advance(emulator, *byte);
        }
        length
    }

    /// Takes a byte of a sequence. Returns 1, or 0 where the byte ends the sequence as a text.
    fn sequence(&mut self, byte: u8, emulator: &mut Emulator) -> usize {
        let next = match (self.state, byte) {
            (_, ESCAPE) => State::Escape,
            (State::Osc, CANCEL | SUBSTITUTE) => {
                emulator.string_is_whole = None;
                State::Ground
            }
            (_, CANCEL | SUBSTITUTE) | (State::Osc, BELL) => State::Ground,
            (State::Osc, _) => {
                self.length += usize::from(!is_control(byte));
                State::Osc
            }
            (State::Escape, b'[') => State::Csi,
            (State::Escape, b']') => {
                self.length = 0;
                State::Osc
            }
            (State::Escape, b'P' | b'X' | b'^' | b'_') => {
                emulator.count_unknown();
                self.state = State::Skipped;
                return 1;
            }
            (State::Escape | State::Intermediate, b' '..=b'/') => State::Intermediate,
            (State::Escape | State::Intermediate, b'0'..=b'~') => State::Ground,
            (State::Csi, b'@'..=b'~') => State::Ground,
            (_, 0x80..) => {
                emulator.count_unknown();
                self.advance(CANCEL, State::Ground, emulator);
                return 0;
            }
            (state, _) => state,
        };
        if self.state == State::Osc && next == State::Escape || byte == BELL {
            emulator.string_is_whole = Some(self.length <= LONGEST_STRING);
        }
        self.advance(byte, next, emulator);
        1
    }

    /// Skips a string up to the byte that ends it, and returns the length of both.
    fn skip(&mut self, bytes: &[u8], emulator: &mut Emulator) -> usize {
        let is_end = |byte: &u8| matches!(*byte, ESCAPE | CANCEL | SUBSTITUTE);
        let Some(at) = bytes.iter().position(is_end) else {
            return bytes.len();
        };
        self.sequence(bytes[at], emulator);
        at + 1
    }

    fn advance(&mut self, byte: u8, next: State, emulator: &mut Emulator) {
        self.parser.advance(emulator, byte);
        self.state = next;
    }
}

fn is_control(byte: u8) -> bool {
    byte < b' ' || byte == DELETE
}

/// Whether a byte belongs to a parameter, or separates two.
fn is_parameter(byte: &u8) -> bool {
    matches!(*byte, b'0'..=b';')
}

/// The longest string that `vte` keeps whole.
const LONGEST_STRING: usize = 1023;

/// The number of bytes before the first control character, and whether they are ASCII. Eight bytes
/// are tested at once, by their high bits: a carry only reaches bytes after the one that is found.
fn measure_text(bytes: &[u8]) -> (usize, bool) {
    let each = |byte: u8| u64::from_ne_bytes([byte; 8]);
    let (mut length, mut high) = (0, 0);
    for block in bytes.chunks_exact(8) {
        let block = block.try_into().map_or(0, u64::from_le_bytes);
        let (below, above) = (block.wrapping_sub(each(32)), block.wrapping_add(each(1)));
        let found = (below | above) & !block & each(0x80);
        if found != 0 {
            let before = found.trailing_zeros();
            high |= block & ((1 << before) - 1);
            return (length + before as usize / 8, high & each(0x80) == 0);
        }
        high |= block;
        length += 8;
    }
    let rest = bytes[length..].iter();
    let rest = rest.take_while(|byte| !byte.is_ascii_control());
    for byte in rest {
        high |= u64::from(*byte);
        length += 1;
    }
    (length, high & each(0x80) == 0)
}

#[cfg(test)]
mod tests {
    use super::measure_text;

    #[test]
    fn texts_end_at_control_characters() {
        for end in ["\0", "\n", "\x1b", "\x7f"] {
            for length in 0..30 {
                let text = format!("{}{end} か behind", "か~ x".repeat(9));
                let text = &text.as_bytes()[54 - length..];
                let is_ascii = text[..length].is_ascii();
                assert_eq!(measure_text(text), (length, is_ascii), "{end:?}");
            }
        }
        assert_eq!(measure_text(&[0xff; 20]), (20, false));
        assert_eq!(measure_text("0123456789abcdef\r か".as_bytes()), (16, true));
        assert_eq!(measure_text(b""), (0, true));
    }
}
