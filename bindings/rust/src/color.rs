//! Colours.

#[doc(no_inline)]
pub use crate::ansi::AnsiColor;
use crate::ffi::tk_color;

/// An index of the palette: 0 to 7 are the classic colours, 8 to 15 their bright forms.
pub type PaletteIndex = u8;

/// A true colour: red, green and blue in sRGB.
#[derive(Clone, Copy, PartialEq, Eq, Hash, Debug, Default)]
pub struct RgbColor {
    red: u8,
    green: u8,
    blue: u8,
}

impl RgbColor {
    /// The colour of this red, green and blue.
    #[must_use]
    pub const fn new_8bpc(red: u8, green: u8, blue: u8) -> RgbColor {
        RgbColor { red, green, blue }
    }

    /// Red, green and blue.
    #[must_use]
    pub const fn to_tuple_rgb8(self) -> (u8, u8, u8) {
        (self.red, self.green, self.blue)
    }
}

/// A cell's colour. A true one says what replaces it where true colours are not shown.
#[derive(Clone, Copy, PartialEq, Eq, Hash, Debug, Default)]
pub enum ColorAttribute {
    /// This colour, or else the palette's at this index.
    TrueColorWithPaletteFallback(RgbColor, PaletteIndex),
    /// This colour, or else the default one.
    TrueColorWithDefaultFallback(RgbColor),
    /// The palette's colour at this index.
    PaletteIndex(PaletteIndex),
    /// The default colour.
    #[default]
    Default,
}

/// This colour, or else the default one.
impl From<RgbColor> for ColorAttribute {
    fn from(color: RgbColor) -> ColorAttribute {
        ColorAttribute::TrueColorWithDefaultFallback(color)
    }
}

impl From<tk_color> for ColorAttribute {
    fn from(color: tk_color) -> ColorAttribute {
        let rgb = RgbColor::new_8bpc(color.red, color.green, color.blue);
        match color.kind {
            1 => ColorAttribute::PaletteIndex(color.index),
            2 => ColorAttribute::TrueColorWithDefaultFallback(rgb),
            3 => ColorAttribute::TrueColorWithPaletteFallback(rgb, color.index),
            _ => ColorAttribute::Default,
        }
    }
}

impl From<ColorAttribute> for tk_color {
    #[inline]
    fn from(color: ColorAttribute) -> tk_color {
        match color {
            ColorAttribute::Default => tk_color::default(),
            color => chosen(color),
        }
    }
}

impl tk_color {
    /// Becomes this colour. It has to be the default one.
    #[inline]
    pub(crate) fn choose(&mut self, color: ColorAttribute) {
        if !matches!(color, ColorAttribute::Default) {
            *self = chosen(color);
        }
    }
}

/// The fields of a colour that isn't the default one. Apart, so that the usual one takes few steps.
#[inline(never)]
fn chosen(color: ColorAttribute) -> tk_color {
    let (kind, rgb, index) = match color {
        ColorAttribute::Default => (0, RgbColor::default(), 0),
        ColorAttribute::PaletteIndex(index) => (1, RgbColor::default(), index),
        ColorAttribute::TrueColorWithDefaultFallback(rgb) => (2, rgb, 0),
        ColorAttribute::TrueColorWithPaletteFallback(rgb, index) => (3, rgb, index),
    };
    let (red, green, blue) = rgb.to_tuple_rgb8();
    tk_color {
        kind,
        red,
        green,
        blue,
        index,
    }
}
