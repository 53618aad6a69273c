//! The SGR that turns one pen into another.

use crate::attributes::{Attributes, Blink, Intensity, Underline};
use crate::color::ColorAttribute;
use std::fmt::{Display, Write};

/// The shorter one of the sequence that sets what differs, and of the one that sets all: none where
/// the pens are equal. All is set where the pen before is unknown.
pub(super) fn sequence(from: Option<&Attributes>, to: &Attributes) -> String {
    let all = params(&Attributes::default(), to);
    let all = if all.is_empty() {
        all
    } else {
        "0;".to_string() + &all
    };
    match from.map(|from| params(from, to)) {
        Some(params) if params.is_empty() => params,
        Some(params) if params.len() <= all.len() => format!("\x1b[{params}m"),
        _ => format!("\x1b[{all}m"),
    }
}

/// The parameters that set what differs.
fn params(from: &Attributes, to: &Attributes) -> String {
    let mut params = Params::default();
    if from.intensity != to.intensity {
        // Bold and dim may be on together.
        if from.intensity != Intensity::Normal {
            params.push(22);
        }
        match to.intensity {
            Intensity::Normal => {}
            Intensity::Bold => params.push(1),
            Intensity::Half => params.push(2),
        }
    }
    if from.underline != to.underline {
        match to.underline {
            Underline::None => params.push(24),
            Underline::Single => params.push(4),
            kind => params.push(format_args!("4:{}", kind as u8)),
        }
    }
    if from.blink != to.blink {
        if from.blink != Blink::None {
            params.push(25);
        }
        match to.blink {
            Blink::None => {}
            Blink::Slow => params.push(5),
            Blink::Rapid => params.push(6),
        }
    }
    let flags = [
        (from.italic, to.italic, 3, 23),
        (from.reverse, to.reverse, 7, 27),
        (from.invisible, to.invisible, 8, 28),
        (from.strikethrough, to.strikethrough, 9, 29),
        (from.overline, to.overline, 53, 55),
    ];
    for (from, to, on, off) in flags {
        if from != to {
            params.push(if to { on } else { off });
        }
    }
    let colors = [
        (from.foreground, to.foreground, 30),
        (from.background, to.background, 40),
        (from.underline_color, to.underline_color, 50),
    ];
    for (from, to, place) in colors {
        if from != to {
            params.push_color(to, place);
        }
    }
    params.text
}

/// The parameters of a sequence.
#[derive(Default)]
struct Params {
    text: String,
}

impl Params {
    fn push(&mut self, param: impl Display) {
        let mark = if self.text.is_empty() { "" } else { ";" };
        write!(self.text, "{mark}{param}").unwrap_or_default();
    }

    /// Sets a colour by the numbers from `place` on: 30 for texts, 40 for backgrounds, 50 for the
    /// line below a text. The numbers of the last one stand behind colons, since terminals that
    /// don't know it would read them as others.
    fn push_color(&mut self, color: ColorAttribute, place: u8) {
        let is_line = place == 50;
        match color {
            ColorAttribute::Default => self.push(place + 9),
            ColorAttribute::PaletteIndex(index) if is_line => {
                self.push(format_args!("58:5:{index}"));
            }
            ColorAttribute::PaletteIndex(index @ 0..=7) => self.push(place + index),
            ColorAttribute::PaletteIndex(index @ 8..=15) => self.push(place + 60 + index - 8),
            ColorAttribute::PaletteIndex(index) => {
                self.push(format_args!("{};5;{index}", place + 8));
            }
            ColorAttribute::TrueColorWithDefaultFallback(rgb)
            | ColorAttribute::TrueColorWithPaletteFallback(rgb, _) => {
                let (red, green, blue) = rgb.to_tuple_rgb8();
                if is_line {
                    self.push(format_args!("58:2::{red}:{green}:{blue}"));
                } else {
                    self.push(format_args!("{};2;{red};{green};{blue}", place + 8));
                }
            }
        }
    }
}

#[cfg(test)]
mod tests {
    use super::*;
    use crate::color::RgbColor;

    fn pen(set: impl FnOnce(&mut Attributes)) -> Attributes {
        let mut pen = Attributes::default();
        set(&mut pen);
        pen
    }

    #[test]
    fn what_differs_is_set() {
        let default = Attributes::default();
        let bold = pen(|pen| pen.intensity = Intensity::Bold);
        let dim = pen(|pen| pen.intensity = Intensity::Half);
        let red = pen(|pen| pen.foreground = ColorAttribute::PaletteIndex(1));
        let bold_red = pen(|pen| {
            pen.intensity = Intensity::Bold;
            pen.foreground = ColorAttribute::PaletteIndex(1);
        });
        let slow = pen(|pen| pen.blink = Blink::Slow);
        let rapid = pen(|pen| pen.blink = Blink::Rapid);
        for (from, to, wanted) in [
            (&default, &default, ""),
            (&default, &bold, "\x1b[1m"),
            (&bold, &default, "\x1b[m"),
            (&bold, &dim, "\x1b[0;2m"),
            (&bold, &bold_red, "\x1b[31m"),
            (&bold_red, &bold, "\x1b[39m"),
            (&bold_red, &red, "\x1b[22m"),
            (&bold_red, &default, "\x1b[m"),
            (&slow, &rapid, "\x1b[0;6m"),
        ] {
            assert_eq!(sequence(Some(from), to), wanted);
        }
        assert_eq!(sequence(None, &default), "\x1b[m");
        assert_eq!(sequence(None, &bold_red), "\x1b[0;1;31m");
    }

    #[test]
    fn colours_have_their_shortest_forms() {
        let rgb = ColorAttribute::from(RgbColor::new_8bpc(1, 2, 3));
        for (color, wanted) in [
            (ColorAttribute::PaletteIndex(0), "30;40;58:5:0"),
            (ColorAttribute::PaletteIndex(15), "97;107;58:5:15"),
            (ColorAttribute::PaletteIndex(16), "38;5;16;48;5;16;58:5:16"),
            (rgb, "38;2;1;2;3;48;2;1;2;3;58:2::1:2:3"),
        ] {
            let to = pen(|pen| {
                pen.foreground = color;
                pen.background = color;
                pen.underline_color = color;
            });
            assert_eq!(params(&Attributes::default(), &to), wanted);
            assert_eq!(params(&to, &Attributes::default()), "39;49;59");
        }
    }

    #[test]
    fn each_attribute_is_set_and_ends() {
        let all = pen(|pen| {
            pen.intensity = Intensity::Half;
            pen.underline = Underline::Curly;
            pen.blink = Blink::Rapid;
            pen.italic = true;
            pen.reverse = true;
            pen.invisible = true;
            pen.strikethrough = true;
            pen.overline = true;
        });
        let default = Attributes::default();
        assert_eq!(params(&default, &all), "2;4:3;6;3;7;8;9;53");
        assert_eq!(params(&all, &default), "22;24;25;23;27;28;29;55");
    }
}
