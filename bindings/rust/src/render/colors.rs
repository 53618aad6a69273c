//! The colours that a terminal has, and which of them stand for others.

use crate::color::{ColorAttribute, PaletteIndex, RgbColor};
use std::ops::RangeInclusive;

/// The colours that a terminal has.
#[derive(Clone, Copy, PartialEq, Eq, Hash, Debug, Default)]
pub enum Colors {
    /// True colours, and the palette of 256.
    #[default]
    True,
    /// The palette of 256. A true colour is the one of its fallback index, or else the nearest of
    /// those from 16 on, which are the same on all terminals.
    Indexed256,
    /// The first 16 of the palette. Another colour is the nearest of them, as they are usually.
    Indexed16,
}

/// The first colours of the palette, which each terminal has a little differently.
const FIRST: [(u8, u8, u8); 16] = [
    (0, 0, 0),
    (205, 0, 0),
    (0, 205, 0),
    (205, 205, 0),
    (0, 0, 238),
    (205, 0, 205),
    (0, 205, 205),
    (229, 229, 229),
    (127, 127, 127),
    (255, 0, 0),
    (0, 255, 0),
    (255, 255, 0),
    (92, 92, 255),
    (255, 0, 255),
    (0, 255, 255),
    (255, 255, 255),
];

/// The steps of red, green and blue in the cube of colours, which begins at index 16.
const LEVELS: [u8; 6] = [0, 95, 135, 175, 215, 255];

/// Where the grey colours begin, after the cube.
const GREYS: PaletteIndex = 232;

impl Colors {
    /// The colour that stands for this one.
    pub(super) fn of(self, color: ColorAttribute) -> ColorAttribute {
        use ColorAttribute::{
            Default, PaletteIndex, TrueColorWithDefaultFallback, TrueColorWithPaletteFallback,
        };
        match (self, color) {
            (_, Default) => Default,
            (Colors::Indexed16, PaletteIndex(index) | TrueColorWithPaletteFallback(_, index)) => {
                PaletteIndex(first(index))
            }
            (Colors::Indexed256, TrueColorWithPaletteFallback(_, index))
            | (_, PaletteIndex(index)) => PaletteIndex(index),
            (Colors::True, TrueColorWithPaletteFallback(rgb, _)) => {
                TrueColorWithDefaultFallback(rgb)
            }
            (Colors::True, TrueColorWithDefaultFallback(_)) => color,
            (Colors::Indexed256, TrueColorWithDefaultFallback(rgb)) => {
                PaletteIndex(nearest(rgb, 16..=255))
            }
            (Colors::Indexed16, TrueColorWithDefaultFallback(rgb)) => {
                PaletteIndex(nearest(rgb, 0..=15))
            }
        }
    }
}

/// Which of the first colours stands for one of the palette.
fn first(index: PaletteIndex) -> PaletteIndex {
    if index < 16 {
        index
    } else {
        nearest(palette(index), 0..=15)
    }
}

/// The colour at an index of the palette, as it is usually.
pub(super) fn palette(index: PaletteIndex) -> RgbColor {
    let (red, green, blue) = match index {
        0..=15 => FIRST[usize::from(index)],
        GREYS..=255 => {
            let level = 8 + 10 * (index - GREYS);
            (level, level, level)
        }
        _ => {
            let place = usize::from(index - 16);
            (LEVELS[place / 36], LEVELS[place / 6 % 6], LEVELS[place % 6])
        }
    };
    RgbColor::new_8bpc(red, green, blue)
}

/// The first one of those whose distance is the least.
fn nearest(color: RgbColor, indices: RangeInclusive<PaletteIndex>) -> PaletteIndex {
    let first = *indices.start();
    let nearest = indices.min_by_key(|index| distance(color, palette(*index)));
    nearest.unwrap_or(first)
}

/// The square of the distance between two colours.
fn distance(one: RgbColor, other: RgbColor) -> u32 {
    let (one, other) = (one.to_tuple_rgb8(), other.to_tuple_rgb8());
    let pairs = [(one.0, other.0), (one.1, other.1), (one.2, other.2)];
    let squares = pairs.map(|(one, other)| u32::from(one.abs_diff(other)).pow(2));
    squares.iter().sum()
}

#[cfg(test)]
mod tests {
    use super::*;

    fn rgb(red: u8, green: u8, blue: u8) -> ColorAttribute {
        RgbColor::new_8bpc(red, green, blue).into()
    }

    #[test]
    fn the_palette_is_the_usual_one() {
        for (index, color) in [
            (1, (205, 0, 0)),
            (16, (0, 0, 0)),
            (21, (0, 0, 255)),
            (196, (255, 0, 0)),
            (110, (135, 175, 215)),
            (231, (255, 255, 255)),
            (232, (8, 8, 8)),
            (255, (238, 238, 238)),
        ] {
            assert_eq!(palette(index).to_tuple_rgb8(), color, "{index}");
        }
    }

    #[test]
    fn the_nearest_colour_stands_for_one_that_is_lacking() {
        use ColorAttribute::PaletteIndex;
        let fallback = |index| {
            ColorAttribute::TrueColorWithPaletteFallback(RgbColor::new_8bpc(255, 0, 0), index)
        };
        for (color, true_one, indexed256, indexed16) in [
            (rgb(255, 0, 0), rgb(255, 0, 0), 196, 9),
            (rgb(250, 5, 3), rgb(250, 5, 3), 196, 9),
            (rgb(10, 10, 10), rgb(10, 10, 10), 232, 0),
            (rgb(130, 180, 210), rgb(130, 180, 210), 110, 8),
            (fallback(2), rgb(255, 0, 0), 2, 2),
            (fallback(21), rgb(255, 0, 0), 21, 4),
            (PaletteIndex(3), PaletteIndex(3), 3, 3),
            (PaletteIndex(231), PaletteIndex(231), 231, 15),
        ] {
            assert_eq!(Colors::True.of(color), true_one);
            assert_eq!(Colors::Indexed256.of(color), PaletteIndex(indexed256));
            assert_eq!(Colors::Indexed16.of(color), PaletteIndex(indexed16));
        }
        let default = ColorAttribute::Default;
        for colors in [Colors::True, Colors::Indexed256, Colors::Indexed16] {
            assert_eq!(colors.of(default), default);
        }
    }
}
