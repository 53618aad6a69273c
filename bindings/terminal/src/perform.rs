//! What `vte` reads: sequences that are rare, or were cut.

use crate::emulator::Emulator;
use crate::params::{Marks, Params};
use vte::Perform;

/// More words than `vte` keeps of a string for sure.
const MOST_WORDS: usize = 16;

impl Perform for Emulator {
    fn execute(&mut self, byte: u8) {
        if !matches!(byte, 0x18 | 0x1a) {
            self.do_control(byte);
        }
    }

    fn csi_dispatch(&mut self, read: &vte::Params, marks: &[u8], is_cut: bool, last: char) {
        let mut params = Params::default();
        let mut numbers = read.iter().flat_map(|param| param.iter().enumerate());
        let all = numbers.try_for_each(|(index, number)| params.push(*number, index > 0));
        match (Marks::of(marks), u8::try_from(last)) {
            (Some(marks), Ok(last)) if all.is_some() && !is_cut => {
                self.do_csi(&params, marks, last);
            }
            _ => self.meet_unknown(),
        }
    }

    fn esc_dispatch(&mut self, marks: &[u8], is_cut: bool, last: u8) {
        match *marks {
            [] if !is_cut => self.do_escape(0, last),
            [mark] if !is_cut => self.do_escape(mark, last),
            _ => self.meet_unknown(),
        }
    }

    fn osc_dispatch(&mut self, words: &[&[u8]], is_bell: bool) {
        self.last.is_live = false;
        if let Some(is_whole) = self.string_is_whole.take() {
            let is_whole = is_whole && words.len() < MOST_WORDS;
            let end = if is_bell { "\x07" } else { "\x1b\\" };
            if !self.do_osc(words, is_whole, end) {
                self.count_unknown();
            }
        }
    }
}

impl Emulator {
    /// Counts a sequence that isn't known.
    fn meet_unknown(&mut self) {
        self.last.is_live = false;
        self.count_unknown();
    }
}
