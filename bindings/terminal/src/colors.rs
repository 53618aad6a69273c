//! The colours that programs ask for and set.

use tikeburo::RgbColor;
const DARK: u8 = 0;
const LIGHT: u8 = 229;

/// The colours that are reported to programs: those of the palette, of texts, of the background and
/// of the cursor. A program may set each of them.
///
/// ```
/// use tikeburo_terminal::{Colors, Terminal};
/// use tikeburo::RgbColor;
///
/// let mut terminal = Terminal::new(80, 24)?;
/// let white = RgbColor::new_8bpc(255, 255, 255);
/// terminal.set_colors(Colors { background: white, ..Colors::default() });
/// terminal.feed(b"\x1b]11;?\x07")?;
/// assert_eq!(terminal.take_reports(), b"\x1b]11;rgb:ffff/ffff/ffff\x07");
/// # Ok::<(), tikeburo::Error>(())
/// ```
#[derive(Clone, PartialEq, Eq, Debug)]
pub struct Colors {
    /// The palette, by its indices.
    pub palette: [RgbColor; 256],
    /// The default colour of texts.
    pub foreground: RgbColor,
    /// The default background.
    pub background: RgbColor,
    /// The cursor's colour.
    pub cursor: RgbColor,
}

/// The colours of xterm: 16 named ones, a cube of six shades each, and 24 greys; light texts on a
/// dark background.
impl Default for Colors {
    fn default() -> Colors {
        let mut palette = [RgbColor::default(); 256];
        for (index, color) in (0..=255).zip(&mut palette) {
            *color = usual(index);
        }
        Colors {
            palette,
            foreground: RgbColor::new_8bpc(LIGHT, LIGHT, LIGHT),
            background: RgbColor::new_8bpc(DARK, DARK, DARK),
            cursor: RgbColor::new_8bpc(LIGHT, LIGHT, LIGHT),
        }
    }
}

impl Colors {
    /// The colour that `OSC 10`, `11` or `12` names.
    pub(crate) fn named(&mut self, number: usize) -> Option<&mut RgbColor> {
        match number {
            10 => Some(&mut self.foreground),
            11 => Some(&mut self.background),
            12 => Some(&mut self.cursor),
            _ => None,
        }
    }
}

/// The palette's colour at this index.
fn usual(index: u8) -> RgbColor {
    let shade = |step: u8| if step == 0 { 0 } else { 55 + 40 * step };
    match index {
        4 => RgbColor::new_8bpc(0, 0, 238),
        7 => RgbColor::new_8bpc(LIGHT, LIGHT, LIGHT),
        8 => RgbColor::new_8bpc(127, 127, 127),
        12 => RgbColor::new_8bpc(92, 92, 255),
        0..=15 => {
            let value = if index < 8 { 205 } else { 255 };
            let part = |bit: u8| if index & bit == 0 { 0 } else { value };
            RgbColor::new_8bpc(part(1), part(2), part(4))
        }
        16..=231 => {
            let cube = index - 16;
            RgbColor::new_8bpc(shade(cube / 36), shade(cube / 6 % 6), shade(cube % 6))
        }
        232..=255 => {
            let grey = 8 + 10 * (index - 232);
            RgbColor::new_8bpc(grey, grey, grey)
        }
    }
}

/// The colour of `rgb:R/G/B`, of one to four hexadecimal digits each, or of `#` and three parts of
/// as many digits.
pub(crate) fn parse(text: &str) -> Option<RgbColor> {
    if let Some(digits) = text.strip_prefix('#') {
        let length = digits.len() / 3;
        let is_whole = (1..=4).contains(&length) && digits.len() == 3 * length;
        let part = |at: usize| digits.get(at * length..(at + 1) * length);
        let high = |at| high_byte(part(at)?);
        return is_whole.then_some(RgbColor::new_8bpc(high(0)?, high(1)?, high(2)?));
    }
    let mut parts = text.strip_prefix("rgb:")?.split('/').map(scaled_byte);
    let color = RgbColor::new_8bpc(parts.next()??, parts.next()??, parts.next()??);
    parts.next().is_none().then_some(color)
}

/// The first byte of a number whose digits are its highest ones.
fn high_byte(digits: &str) -> Option<u8> {
    let number = hexadecimal(digits)?;
    let bits = 4 * digits.len();
    Some(if bits < 8 {
        number << 4
    } else {
        number >> (bits - 8)
    } as u8)
}

/// A number as a share of the greatest one with as many digits, scaled to 255.
fn scaled_byte(digits: &str) -> Option<u8> {
    let number = hexadecimal(digits)?;
    let most = (1 << (4 * digits.len())) - 1;
    Some((number * 255 / most) as u8)
}

fn hexadecimal(digits: &str) -> Option<u32> {
    let is_short = (1..=4).contains(&digits.len());
    let is_number = digits.bytes().all(|byte| byte.is_ascii_hexdigit());
    (is_short && is_number).then(|| u32::from_str_radix(digits, 16).ok())?
}

#[cfg(test)]
mod tests {
    use super::*;

    #[test]
    fn colours_are_read() {
        let color = |red, green, blue| Some(RgbColor::new_8bpc(red, green, blue));
        assert_eq!(parse("rgb:ff/80/0"), color(255, 128, 0));
        assert_eq!(parse("rgb:ffff/8080/0000"), color(255, 128, 0));
        assert_eq!(parse("rgb:f/0/8"), color(255, 0, 136));
        assert_eq!(parse("#ff8000"), color(255, 128, 0));
        assert_eq!(parse("#f80"), color(0xf0, 0x80, 0));
        assert_eq!(parse("#ffff80800000"), color(255, 128, 0));
        for wrong in [
            "",
            "red",
            "rgb:1/2",
            "rgb:1/2/3/4",
            "rgb:12345/0/0",
            "rgb:+1/0/0",
            "#12",
        ] {
            assert_eq!(parse(wrong), None, "{wrong}");
        }
        assert_eq!(parse("#か"), None);
    }

    #[test]
    fn the_palette_is_that_of_xterm() {
        let palette = Colors::default().palette;
        let tuple = |index: usize| palette[index].to_tuple_rgb8();
        assert_eq!([tuple(1), tuple(9)], [(205, 0, 0), (255, 0, 0)]);
        assert_eq!([tuple(16), tuple(231)], [(0, 0, 0), (255, 255, 255)]);
        assert_eq!([tuple(67), tuple(244)], [(95, 135, 175), (128, 128, 128)]);
    }
}
