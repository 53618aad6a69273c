//! Sets of characters: ASCII, the British one, and the one for drawings.

/// What the drawing set has for `_` to `~`.
const DRAWINGS: [char; 32] = [
    ' ', '◆', '▒', '␉', '␌', '␍', '␊', '°', '±', '␤', '␋', '┘', '┐', '┌', '└', '┼', '⎺', '⎻', '─',
    '⎼', '⎽', '├', '┤', '┴', '┬', '│', '≤', '≥', 'π', '≠', '£', '·',
];

/// A set of characters that are shown for those of ASCII.
#[derive(Clone, Copy, PartialEq, Eq, Default)]
enum Charset {
    #[default]
    Ascii,
    British,
    Drawing,
}

impl Charset {
    /// What it shows for a character.
    fn translate(self, character: char) -> char {
        match (self, character) {
            (Charset::British, '#') => '£',
            (Charset::Drawing, '_'..='~') => DRAWINGS[character as usize - '_' as usize],
            _ => character,
        }
    }
}

/// The sets G0 and G1, and which of them is in use.
#[derive(Clone, Copy, Default)]
pub(crate) struct Charsets {
    sets: [Charset; 2],
    in_use: usize,
}

impl Charsets {
    /// Makes G0 or G1 the set that this final byte names. An unknown one is ASCII.
    pub(crate) fn designate(&mut self, number: usize, byte: u8) {
        self.sets[number] = match byte {
            b'0' => Charset::Drawing,
            b'A' => Charset::British,
            _ => Charset::Ascii,
        };
    }

    /// Uses G0 or G1.
    pub(crate) fn shift(&mut self, number: usize) {
        self.in_use = number;
    }

    /// Whether each text is shown as it is.
    #[inline]
    pub(crate) fn is_ascii(&self) -> bool {
        self.sets[self.in_use] == Charset::Ascii
    }

    /// The text that is shown for a text of ASCII.
    pub(crate) fn translate(&self, text: &str) -> String {
        let set = self.sets[self.in_use];
        text.chars().map(|it| set.translate(it)).collect()
    }
}

#[cfg(test)]
mod tests {
    use super::*;

    #[test]
    fn drawings_are_shown_for_small_letters() {
        let mut charsets = Charsets::default();
        assert!(charsets.is_ascii());
        charsets.designate(1, b'0');
        assert!(charsets.is_ascii());
        charsets.shift(1);
        assert_eq!(charsets.translate("lqk_~A"), "┌─┐ ·A");
        charsets.shift(0);
        charsets.designate(0, b'A');
        assert_eq!(charsets.translate("#x"), "£x");
    }
}
