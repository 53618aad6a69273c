//! Parts of what programs write, at random.

/// Numbers that are the same for each run.
pub struct Random(u64);

impl Random {
    pub fn new(seed: u64) -> Random {
        Random(seed)
    }

    pub fn below(&mut self, limit: usize) -> usize {
        self.0 = self
            .0
            .wrapping_mul(6364136223846793005)
            .wrapping_add(1442695040888963407);
        (self.0 >> 33) as usize % limit
    }

    pub fn pick<'a, T>(&mut self, all: &'a [T]) -> &'a T {
        &all[self.below(all.len())]
    }
}

const TEXTS: [&str; 20] = [
    "a",
    "word",
    "か漢字",
    "e\u{301}",
    "\u{301}",
    "👩\u{200d}🚀",
    "🇩🇪",
    "🇩",
    "☂\u{fe0f}",
    "\u{fe0f}",
    "\u{200d}",
    "\u{200b}",
    "ｶﾞ",
    "a long text that wraps in the next row",
    "漢字漢字漢字漢字漢字漢字",
    "\u{600}1",
    "क\u{94d}ष",
    "กำ",
    "\u{1100}\u{1161}",
    "\u{fffd}",
];
const CONTROLS: [&str; 15] = [
    "\r",
    "\n",
    "\r\n",
    "\n\n\n\n\n",
    "\x08",
    "\t",
    "\x0e",
    "\x0f",
    "\x07",
    "\x0b",
    "\x18",
    "\x1a",
    "\0",
    "\x7f",
    "\u{85}",
];
const ESCAPES: [&str; 26] = [
    "\x1b7",
    "\x1b8",
    "\x1bD",
    "\x1bE",
    "\x1bM",
    "\x1bH",
    "\x1bc",
    "\x1b(0",
    "\x1b(B",
    "\x1b)0",
    "\x1b=",
    "\x1b>",
    "\x1b#8",
    "\x1bl",
    "\x1bm",
    "\x1b]2;title\x07",
    "\x1b]8;;uri\x1b\\",
    "\x1b]8;id=7;uri\x1b\\",
    "\x1b]8;;\x07",
    "\x1b]11;?\x07",
    "\x1bPq text\x1b\\",
    "\x1b_text\x1b\\",
    "\x1b[!p",
    "\x1b[3 q",
    "\x1b[1;2r",
    "\x1b[?7$p",
];
const MODES: [u16; 14] = [
    1, 4, 6, 7, 20, 25, 47, 69, 1006, 1047, 1048, 1049, 2004, 2026,
];

/// A sequence that some program might write.
pub fn part(random: &mut Random) -> String {
    let number = |random: &mut Random| match random.below(8) {
        0 => String::new(),
        1 => 65535.to_string(),
        _ => random.below(12).to_string(),
    };
    match random.below(10) {
        0..=3 => random.pick(&TEXTS).to_string(),
        4 => random.pick(&CONTROLS).to_string(),
        5 => random.pick(&ESCAPES).to_string(),
        6 => {
            let (mode, last) = (random.pick(&MODES), random.pick(&["h", "l"]));
            format!("\x1b[{}{mode}{last}", random.pick(&["", "?", "?", "?"]))
        }
        7 => {
            let colors = ["0", "1", "31", "44", "7", "38;5;200", "48:2::1:2:3", "4:3"];
            format!("\x1b[{}m", random.pick(&colors))
        }
        _ => {
            let last = *random.pick(b"@ABCDEFGHIJKLMPSTXZ`abcdefgnrstu");
            let (first, second) = (number(random), number(random));
            format!("\x1b[{first};{second}{}", char::from(last))
        }
    }
}
