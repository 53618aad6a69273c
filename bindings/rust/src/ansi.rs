//! The palette's first colours by their names.

use crate::attributes::number_variants;
use crate::color::{ColorAttribute, PaletteIndex};
use crate::error::Error;

/// One of the palette's first sixteen colours: eight dark ones, and then eight bright ones.
///
/// ```
/// use tikeburo::{AnsiColor, ColorAttribute};
///
/// assert_eq!(ColorAttribute::from(AnsiColor::Navy), ColorAttribute::PaletteIndex(4));
/// ```
#[derive(Clone, Copy, PartialEq, Eq, Hash, Debug)]
pub enum AnsiColor {
    /// Black.
    Black,
    /// Dark red.
    Maroon,
    /// Dark green.
    Green,
    /// Dark yellow.
    Olive,
    /// Dark blue.
    Navy,
    /// Dark magenta.
    Purple,
    /// Dark cyan.
    Teal,
    /// Light grey.
    Silver,
    /// Dark grey.
    Grey,
    /// Bright red.
    Red,
    /// Bright green.
    Lime,
    /// Bright yellow.
    Yellow,
    /// Bright blue.
    Blue,
    /// Bright magenta.
    Fuchsia,
    /// Bright cyan.
    Aqua,
    /// White.
    White,
}

number_variants!(
    AnsiColor: Black,
    Maroon,
    Green,
    Olive,
    Navy,
    Purple,
    Teal,
    Silver,
    Grey,
    Red,
    Lime,
    Yellow,
    Blue,
    Fuchsia,
    Aqua,
    White
);

/// Its index of the palette.
impl From<AnsiColor> for PaletteIndex {
    fn from(color: AnsiColor) -> PaletteIndex {
        color as PaletteIndex
    }
}

impl From<AnsiColor> for ColorAttribute {
    fn from(color: AnsiColor) -> ColorAttribute {
        ColorAttribute::PaletteIndex(color.into())
    }
}
