//! Random programs of sequences that all three terminals know.

const SIZES: [(usize, usize); 4] = [(10, 4), (20, 6), (7, 3), (80, 24)];
const TEXTS: [&str; 6] = [
    "a",
    "word",
    "e\u{301}",
    "a longer text that wraps",
    "xyz 123",
    "│─┐",
];
const CONTROLS: [&str; 7] = ["\r", "\n", "\r\n", "\x08", "\t", "\x0b", "\n\n\n\n\n\n"];
const SEQUENCES: [&str; 14] = [
    "\x1b7",
    "\x1b8",
    "\x1bD",
    "\x1bM",
    "\x1bc",
    "\x1b[?25l",
    "\x1b[?25h",
    "\x1b[?1049h",
    "\x1b[m",
    "\x1b[1m",
    "\x1b[31;44m",
    "\x1b[38;5;200m",
    "\x1b[48;2;1;2;3m",
    "\x1b[3;4;7m",
];

struct Random(u64);

impl Random {
    fn below(&mut self, limit: usize) -> usize {
        let next = self.0.wrapping_mul(6364136223846793005);
        self.0 = next.wrapping_add(1442695040888963407);
        (self.0 >> 33) as usize % limit
    }

    fn pick<'a, T>(&mut self, all: &'a [T]) -> &'a T {
        &all[self.below(all.len())]
    }

    /// A number of a sequence, or none.
    fn number(&mut self) -> String {
        match self.below(9) {
            0 => String::new(),
            number => number.to_string(),
        }
    }

    fn part(&mut self) -> String {
        match self.below(10) {
            0..=3 => self.pick(&TEXTS).to_string(),
            4 => self.pick(&CONTROLS).to_string(),
            5 => self.pick(&SEQUENCES).to_string(),
            6 => format!("\x1b[{};{}H", self.number(), self.number()),
            7 if self.below(2) == 0 => "\x1b[r".to_string(),
            7 => {
                let first = 1 + self.below(2);
                format!("\x1b[{first};{}r", first + 1)
            }
            8 => {
                // Insertions and deletions of rows also go to the first column.
                let last = *self.pick(b"LM");
                format!("\r\x1b[{}{}", self.number(), char::from(last))
            }
            _ => {
                let last = *self.pick(b"@CDGJKPSTXd");
                format!("\x1b[{}{}", self.number(), char::from(last))
            }
        }
    }
}

/// The program of this number, and a terminal's size.
pub fn program(seed: usize) -> ((usize, usize), String) {
    let mut random = Random(seed as u64 * 7919);
    random.below(1);
    let size = *random.pick(&SIZES);
    (size, (0..3 + seed % 40).map(|_| random.part()).collect())
}
