//! The parameters of a sequence, and sequences that stand whole in what has come.

/// How many numbers `vte` keeps of a sequence, and so do we.
const MOST_NUMBERS: usize = 32;

/// The greatest number: greater ones are this one.
const MOST: u32 = u16::MAX as u32;

const ESCAPE: u8 = 0x1b;

/// The parameters of a `CSI`. Each is a number, and those that follow it after colons.
#[derive(Default)]
pub(crate) struct Params {
    numbers: [u16; MOST_NUMBERS],
    length: usize,
    /// A bit for each number that stands behind a colon.
    colons: u32,
}

impl Params {
    pub(crate) fn clear(&mut self) {
        (self.length, self.colons) = (0, 0);
    }

    /// Appends a number. Returns nothing where there are too many.
    #[inline]
    pub(crate) fn push(&mut self, number: u16, is_behind_colon: bool) -> Option<()> {
        *self.numbers.get_mut(self.length)? = number;
        self.colons |= u32::from(is_behind_colon) << self.length;
        self.length += 1;
        Some(())
    }

    /// The numbers, where none stands behind a colon, so that each is a parameter.
    #[inline]
    pub(crate) fn plain(&self) -> Option<&[u16]> {
        (self.colons == 0).then_some(&self.numbers[..self.length])
    }

    /// The number at the beginning of the parameter at this index, or 0.
    pub(crate) fn number(&self, index: usize) -> usize {
        let number = match self.plain() {
            Some(numbers) => numbers.get(index).copied(),
            None => self.iter().nth(index).map(|param| param[0]),
        };
        number.map_or(0, usize::from)
    }

    /// The first number, or 1 where that is 0.
    pub(crate) fn count(&self) -> usize {
        self.number(0).max(1)
    }

    /// The parameters, each with the numbers after its colons.
    pub(crate) fn iter(&self) -> impl Iterator<Item = &[u16]> {
        let mut rest = &self.numbers[..self.length];
        let mut colons = self.colons;
        std::iter::from_fn(move || {
            if rest.is_empty() {
                return None;
            }
            let length = 1 + (colons >> 1).trailing_ones() as usize;
            let (param, behind) = rest.split_at(length.min(rest.len()));
            (rest, colons) = (behind, colons.checked_shr(length as u32).unwrap_or(0));
            Some(param)
        })
    }
}

/// What a sequence has beside its parameters: the mark before them and the intermediate byte after
/// them, or 0 each.
#[derive(Clone, Copy, PartialEq, Eq, Debug, Default)]
pub(crate) struct Marks {
    pub(crate) before: u8,
    pub(crate) behind: u8,
}

impl Marks {
    pub(crate) const NONE: Marks = Marks::new(0, 0);

    pub(crate) const fn new(before: u8, behind: u8) -> Marks {
        Marks { before, behind }
    }

    /// Those that `vte` says. Returns nothing where there are more than one of a kind.
    pub(crate) fn of(bytes: &[u8]) -> Option<Marks> {
        Some(match *bytes {
            [] => Marks::NONE,
            [before @ b'<'..=b'?'] => Marks::new(before, 0),
            [behind] => Marks::new(0, behind),
            [before @ b'<'..=b'?', behind] => Marks::new(before, behind),
            _ => return None,
        })
    }
}

/// What ends a sequence that needs no parser.
pub(crate) enum Sequence {
    /// A `CSI` with these marks and this final byte, whose parameters were read.
    Csi(Marks, u8),
    /// An escape sequence with this intermediate byte, or 0, and this final byte.
    Escape(u8, u8),
}

/// Reads the sequence that bytes begin with, and returns it with its length. Returns nothing where
/// it isn't whole, or has anything in it that is rare: `vte` reads it then.
#[inline]
pub(crate) fn read(bytes: &[u8], params: &mut Params) -> Option<(Sequence, usize)> {
    match *bytes {
        [ESCAPE, b'[', ..] => read_csi(bytes, params),
        [ESCAPE, b'P' | b'X' | b']' | b'^' | b'_', ..] => None,
        [ESCAPE, last @ b'0'..=b'~', ..] => Some((Sequence::Escape(0, last), 2)),
        [ESCAPE, mark @ b' '..=b'/', last @ b'0'..=b'~', ..] => {
            Some((Sequence::Escape(mark, last), 3))
        }
        _ => None,
    }
}

fn read_csi(bytes: &[u8], params: &mut Params) -> Option<(Sequence, usize)> {
    let (begin, before) = match *bytes.get(2)? {
        mark @ b'<'..=b'?' => (3, mark),
        _ => (2, 0),
    };
    params.clear();
    let (mut at, mut number, mut is_behind_colon) = (begin, 0, false);
    loop {
        let byte = *bytes.get(at)?;
        at += 1;
        if byte.is_ascii_digit() {
            number = MOST.min(10 * number + u32::from(byte - b'0'));
            continue;
        }
        params.push(number as u16, is_behind_colon)?;
        match byte {
            b';' | b':' => (number, is_behind_colon) = (0, byte == b':'),
            b'@'..=b'~' => return Some((Sequence::Csi(Marks::new(before, 0), byte), at)),
            _ => return None,
        }
    }
}

#[cfg(test)]
mod tests {
    use super::*;

    fn read_all(text: &str) -> Option<(Vec<Vec<u16>>, Marks, u8, usize)> {
        let mut params = Params::default();
        match read(text.as_bytes(), &mut params)? {
            (Sequence::Csi(marks, last), length) => Some((
                params.iter().map(<[u16]>::to_vec).collect(),
                marks,
                last,
                length,
            )),
            (Sequence::Escape(mark, last), length) => {
                Some((vec![], Marks::new(0, mark), last, length))
            }
        }
    }

    #[test]
    fn whole_sequences_are_read() {
        let none = Marks::NONE;
        let csi = |params: &[&[u16]], marks, last, length| {
            let params = params.iter().map(|param| param.to_vec()).collect();
            Some((params, marks, last, length))
        };
        assert_eq!(read_all("\x1b[mx"), csi(&[&[0]], none, b'm', 3));
        assert_eq!(read_all("\x1b[1;31mx"), csi(&[&[1], &[31]], none, b'm', 7));
        assert_eq!(read_all("\x1b[;5H"), csi(&[&[0], &[5]], none, b'H', 5));
        assert_eq!(
            read_all("\x1b[4:3;38:2::1:2:3;7m"),
            csi(&[&[4, 3], &[38, 2, 0, 1, 2, 3], &[7]], none, b'm', 20)
        );
        assert_eq!(
            read_all("\x1b[?25l"),
            csi(&[&[25]], Marks::new(b'?', 0), b'l', 6)
        );
        assert_eq!(read_all("\x1b[99999A"), csi(&[&[65535]], none, b'A', 8));
        assert_eq!(read_all("\x1b(Bx"), csi(&[], Marks::new(0, b'('), b'B', 3));
        assert_eq!(read_all("\x1bMx"), csi(&[], none, b'M', 2));
    }

    #[test]
    fn what_is_cut_or_rare_is_left_to_the_parser() {
        let many = format!("\x1b[{}m", "1;".repeat(32));
        for text in [
            "\x1b", "\x1b[", "\x1b[3", "\x1b[3;", "\x1b[?", "\x1b(", &many,
        ] {
            assert!(read_all(text).is_none(), "{text:?}");
        }
        for text in [
            "\x1b[3 q",
            "\x1b[\r3C",
            "\x1b[か",
            "\x1b]2;a\x07",
            "\x1bPq",
            "\x1b\x1b[",
        ] {
            assert!(read_all(text).is_none(), "{text:?}");
        }
        assert!(read_all(&format!("\x1b[{}1m", "1;".repeat(31))).is_some());
    }

    #[test]
    fn numbers_are_those_at_the_beginning_of_parameters() {
        let mut params = Params::default();
        read(b"\x1b[4:3;5m", &mut params);
        assert_eq!([0, 1, 2].map(|index| params.number(index)), [4, 5, 0]);
        read(b"\x1b[7;8m", &mut params);
        assert_eq!([0, 1, 2].map(|index| params.number(index)), [7, 8, 0]);
    }
}
