//! Attributes as the parameters of the escape sequence SGR, `CSI .. m`.

use crate::attributes::{Attributes, Blink, Intensity, Underline};
use crate::color::{ColorAttribute, RgbColor};
use std::fmt::{self, Display, Write};
use std::mem;

impl Attributes {
    /// Sets what the parameters of an SGR say, as terminals read them: each is a number with those
    /// that follow it after colons. The numbers of a colour may be parameters of their own, too.
    /// What has no meaning here changes nothing, and a link stays.
    ///
    /// ```
    /// use tikeburo::{Attributes, ColorAttribute, Intensity, Underline};
    ///
    /// let mut pen = Attributes::default();
    /// let params: [&[u16]; 5] = [&[1], &[4, 3], &[38], &[5], &[200]]; // CSI 1;4:3;38;5;200 m
    /// pen.apply_sgr(params);
    /// assert_eq!(pen.intensity, Intensity::Bold);
    /// assert_eq!(pen.underline, Underline::Curly);
    /// assert_eq!(pen.foreground, ColorAttribute::PaletteIndex(200));
    /// ```
    pub fn apply_sgr<'a>(&mut self, params: impl IntoIterator<Item = &'a [u16]>) {
        let mut params = params.into_iter();
        while let Some(param) = params.next() {
            let Some((number, behind)) = param.split_first() else {
                continue;
            };
            let mut color = || read_color(*number, behind, &mut params);
            match number {
                0 => self.hyperlink = mem::take(self).hyperlink,
                1 => self.intensity = Intensity::Bold,
                2 => self.intensity = Intensity::Half,
                22 => self.intensity = Intensity::Normal,
                3 | 23 => self.italic = *number == 3,
                4 => self.underline = read_underline(behind).unwrap_or(self.underline),
                21 => self.underline = Underline::Double,
                24 => self.underline = Underline::None,
                5 => self.blink = Blink::Slow,
                6 => self.blink = Blink::Rapid,
                25 => self.blink = Blink::None,
                7 | 27 => self.reverse = *number == 7,
                8 | 28 => self.invisible = *number == 8,
                9 | 29 => self.strikethrough = *number == 9,
                53 | 55 => self.overline = *number == 53,
                30..=39 | 90..=97 => self.foreground = color().unwrap_or(self.foreground),
                40..=49 | 100..=107 => self.background = color().unwrap_or(self.background),
                58 | 59 => self.underline_color = color().unwrap_or(self.underline_color),
                _ => {}
            }
        }
    }

    /// The parameters of the SGR that sets these attributes, whatever was set before, as they stand
    /// between `CSI` and `m`. A link, what a text is to a shell, and where it is placed on its line
    /// are left out.
    ///
    /// ```
    /// use tikeburo::{Attributes, ColorAttribute, Intensity};
    ///
    /// let heading = Attributes {
    ///     intensity: Intensity::Bold,
    ///     background: ColorAttribute::PaletteIndex(4),
    ///     ..Attributes::default()
    /// };
    /// assert_eq!(heading.to_sgr(), "0;1;48;5;4");
    /// ```
    #[must_use]
    pub fn to_sgr(&self) -> String {
        let mut out = "0".to_string();
        let kind = self.underline as u8;
        let flags = [
            (self.intensity == Intensity::Bold, 1),
            (self.intensity == Intensity::Half, 2),
            (self.italic, 3),
            (self.underline == Underline::Single, 4),
            (self.underline == Underline::Double, 21),
            (self.blink == Blink::Slow, 5),
            (self.blink == Blink::Rapid, 6),
            (self.reverse, 7),
            (self.invisible, 8),
            (self.strikethrough, 9),
            (self.overline, 53),
        ];
        let mut put = |param: &dyn Display| write!(out, ";{param}").unwrap_or_default();
        for (_, number) in flags.iter().filter(|(is_on, _)| *is_on) {
            put(number);
        }
        if kind > Underline::Double as u8 {
            put(&format_args!("4:{kind}"));
        }
        let colors = [self.foreground, self.background, self.underline_color];
        for (place, color) in [38, 48, 58].into_iter().zip(colors) {
            if color != ColorAttribute::Default {
                put(&Numbers { place, color });
            }
        }
        out
    }
}

/// A colour and the number of its place. The line's below a text stands behind colons, since
/// terminals that don't know it would read its numbers as others.
struct Numbers {
    place: u8,
    color: ColorAttribute,
}

impl Display for Numbers {
    fn fmt(&self, f: &mut fmt::Formatter<'_>) -> fmt::Result {
        let (place, mark) = (self.place, if self.place == 58 { ':' } else { ';' });
        match self.color {
            ColorAttribute::Default => Ok(()),
            ColorAttribute::PaletteIndex(index) => write!(f, "{place}{mark}5{mark}{index}"),
            ColorAttribute::TrueColorWithDefaultFallback(color)
            | ColorAttribute::TrueColorWithPaletteFallback(color, _) => {
                let (red, green, blue) = color.to_tuple_rgb8();
                let space = if mark == ':' { ":" } else { "" };
                write!(
                    f,
                    "{place}{mark}2{space}{mark}{red}{mark}{green}{mark}{blue}"
                )
            }
        }
    }
}

/// The kind of underline that `4` has after it, or else the single one.
fn read_underline(behind: &[u16]) -> Option<Underline> {
    let kind = u8::try_from(*behind.first().unwrap_or(&1)).ok()?;
    kind.try_into().ok()
}

/// The colour that a number names by its last digit: 0 to 7 are the palette's, which has the bright
/// ones from 8 on; 8 is that of `38:5:N`, `38:2:R:G:B` or `38:2:SPACE:R:G:B`, or of the same as
/// parameters; and 9 is the default.
fn read_color<'a>(
    number: u16,
    behind: &[u16],
    rest: &mut impl Iterator<Item = &'a [u16]>,
) -> Option<ColorAttribute> {
    let bright = if number < 90 { 0 } else { 8 };
    match number % 10 {
        8 => {}
        9 => return Some(ColorAttribute::Default),
        digit => return Some(ColorAttribute::PaletteIndex(digit as u8 + bright)),
    }
    let byte = |value: u16| value.min(255) as u8;
    let indexed = |index| Some(ColorAttribute::PaletteIndex(byte(index)));
    let rgb = |red, green, blue| {
        let color = RgbColor::new_8bpc(byte(red), byte(green), byte(blue));
        Some(color.into())
    };
    match *behind {
        [] => {}
        [5, index] => return indexed(index),
        [2, red, green, blue] | [2, _, red, green, blue, ..] => return rgb(red, green, blue),
        _ => return None,
    }
    let mut next = || rest.next()?.first().copied();
    match (next()?, next()?) {
        (5, index) => indexed(index),
        (2, red) => rgb(red, next()?, next()?),
        _ => None,
    }
}

#[cfg(test)]
mod tests {
    use super::*;

    fn apply(pen: &mut Attributes, text: &str) {
        let number = |text: &str| text.parse().unwrap_or(0);
        let param = |param: &str| param.split(':').map(number).collect();
        let params: Vec<Vec<u16>> = text.split(';').map(param).collect();
        pen.apply_sgr(params.iter().map(Vec::as_slice));
    }

    fn read(text: &str) -> Attributes {
        let mut pen = Attributes::default();
        apply(&mut pen, text);
        pen
    }

    #[test]
    fn what_is_written_is_read() {
        for text in [
            "0",
            "0;1;3;4;5;7;8;9;53",
            "0;2;21;6",
            "0;4:3;38;5;1;48;2;1;2;3",
            "0;4:4;58:5:9",
            "0;4:5;58:2::255:0:7",
        ] {
            let pen = read(text);
            assert_eq!(pen.to_sgr(), text);
            assert_eq!(pen == Attributes::default(), text == "0");
        }
    }

    #[test]
    fn each_attribute_ends() {
        let pen = read("1;3;4:2;5;7;8;9;53;38;5;1;48;5;2;58:5:3");
        assert_eq!(pen.underline, Underline::Double);
        for ends in ["0", "22;23;24;25;27;28;29;55;39;49;59", ""] {
            let mut pen = pen.clone();
            apply(&mut pen, ends);
            assert_eq!(pen, Attributes::default());
        }
    }

    #[test]
    fn colours_have_many_forms() {
        let rgb = ColorAttribute::from(RgbColor::new_8bpc(1, 2, 255));
        for (text, color) in [
            ("31", ColorAttribute::PaletteIndex(1)),
            ("97", ColorAttribute::PaletteIndex(15)),
            ("38;5;200", ColorAttribute::PaletteIndex(200)),
            ("38:5:200", ColorAttribute::PaletteIndex(200)),
            ("38;2;1;2;999", rgb),
            ("38:2:1:2:255", rgb),
            ("38:2::1:2:255", rgb),
            ("38:2::1:2:255:0:1", rgb),
        ] {
            let pen = read(&format!("42;{text};58:5:3;1"));
            assert_eq!(pen.foreground, color, "{text}");
            assert_eq!(pen.background, ColorAttribute::PaletteIndex(2));
            assert_eq!(pen.underline_color, ColorAttribute::PaletteIndex(3));
            assert_eq!(pen.intensity, Intensity::Bold);
        }
    }

    #[test]
    fn what_is_unknown_changes_nothing() {
        let pen = read("1;31;4:3");
        for text in [
            "38", "38;5", "38;2;1", "38;7;1", "38:9", "4:6", "4:259", "10;200",
        ] {
            let mut changed = pen.clone();
            apply(&mut changed, text);
            assert_eq!(changed, pen, "{text}");
        }
        let mut linked = Attributes {
            hyperlink: Some(crate::Hyperlink::new("x")),
            ..Attributes::default()
        };
        let before = linked.clone();
        linked.apply_sgr([&[][..], &[0]]);
        assert_eq!(linked, before);
    }
}
