//! Pens and links, as a terminal is sent them.

use super::options::Options;
use crate::attributes::{Attributes, Blink, SemanticType, Underline, VerticalAlign};
use crate::color::ColorAttribute;
use std::fmt::Write;
use std::ops::Deref;
use std::sync::Arc;

/// The longest uri, in bytes, that terminals take.
const LONGEST_URI: usize = 2083;

/// The longest id of a link, in bytes, that terminals take.
const LONGEST_ID: usize = 250;

/// How a cell is shown: attributes that the terminal knows, and a link.
#[derive(Clone, PartialEq, Eq, Debug, Default)]
pub(super) struct Pen {
    pub style: Style,
    pub link: Option<Arc<Link>>,
}

/// Attributes that the terminal knows, without a link, and a number by which they are compared.
#[derive(Clone, Debug, Default)]
pub(super) struct Style {
    number: u128,
    attributes: Attributes,
}

impl Style {
    fn new(attributes: Attributes) -> Style {
        let flags = [
            attributes.italic,
            attributes.reverse,
            attributes.strikethrough,
            attributes.invisible,
            attributes.overline,
        ];
        let kinds = [
            attributes.intensity as u8,
            attributes.underline as u8,
            attributes.blink as u8,
        ];
        let colors = [
            attributes.foreground,
            attributes.background,
            attributes.underline_color,
        ];
        let number = flags
            .iter()
            .fold(0, |all, flag| all << 1 | u128::from(*flag));
        let number = kinds
            .iter()
            .fold(number, |all, kind| all << 3 | u128::from(*kind));
        let number = colors
            .iter()
            .fold(number, |all, color| all << 26 | u128::from(packed(*color)));
        Style { number, attributes }
    }
}

/// A number of 26 bits for each colour that a terminal is sent, 0 for the default one.
fn packed(color: ColorAttribute) -> u32 {
    match color {
        ColorAttribute::Default => 0,
        ColorAttribute::PaletteIndex(index) => 1 << 24 | u32::from(index),
        ColorAttribute::TrueColorWithDefaultFallback(rgb)
        | ColorAttribute::TrueColorWithPaletteFallback(rgb, _) => {
            let (red, green, blue) = rgb.to_tuple_rgb8();
            2 << 24 | u32::from_be_bytes([0, red, green, blue])
        }
    }
}

impl PartialEq for Style {
    fn eq(&self, other: &Style) -> bool {
        self.number == other.number
    }
}

impl Eq for Style {}

impl Deref for Style {
    type Target = Attributes;

    fn deref(&self) -> &Attributes {
        &self.attributes
    }
}

impl Pen {
    /// These attributes, as the terminal knows them. What a text is to a shell, where it is placed
    /// on its line and whether its row was wrapped are not shown.
    pub fn new(attributes: &Attributes, link: Option<Arc<Link>>, options: &Options) -> Pen {
        let colors = options.colors;
        let mut attributes = Attributes {
            semantic_type: SemanticType::default(),
            vertical_align: VerticalAlign::default(),
            wrapped: false,
            hyperlink: None,
            foreground: colors.of(attributes.foreground),
            background: colors.of(attributes.background),
            underline_color: colors.of(attributes.underline_color),
            ..attributes.clone()
        };
        if !options.styled_underlines {
            attributes.underline_color = ColorAttribute::Default;
            if attributes.underline != Underline::None {
                attributes.underline = Underline::Single;
            }
        }
        let style = Style::new(attributes);
        Pen { style, link }
    }

    /// The pen of a blank that looks as one with this pen does. Without lines and swapped colours
    /// a blank has its background alone.
    pub fn of_blank(&self) -> Pen {
        let style = if has_marks(&self.style) {
            self.style.clone()
        } else {
            erased(self.style.background)
        };
        let link = self.link.clone();
        Pen { style, link }
    }

    /// Whether a blank with this pen is what the terminal leaves where it erases.
    pub fn is_erased(&self, options: &Options) -> bool {
        let background = self.style.background;
        self.link.is_none()
            && self.style == erased(background)
            && (options.erases_with_background || background == ColorAttribute::Default)
    }
}

/// The attributes of what is erased with this background.
fn erased(background: ColorAttribute) -> Style {
    Style::new(Attributes {
        background,
        ..Attributes::default()
    })
}

/// Whether blanks show more of a pen than its background.
pub(super) fn has_marks(attributes: &Attributes) -> bool {
    attributes.reverse
        || attributes.strikethrough
        || attributes.overline
        || attributes.underline != Underline::None
        || attributes.blink != Blink::None
}

/// A link, as it is sent: both are printable ASCII.
#[derive(PartialEq, Eq, Debug)]
pub(super) struct Link {
    pub id: String,
    pub uri: String,
}

impl Link {
    /// A link to this uri. Where it has no id it gets one of its uri, so that its parts, which are
    /// written at different times, are one link to the terminal. There is none to an empty uri,
    /// which ends a link, nor to one that is too long.
    pub fn new(uri: &str, id: Option<&str>) -> Option<Link> {
        let uri = encoded(uri, |byte| byte.is_ascii_graphic());
        let id = match id {
            Some(id) => encoded(id, |byte| {
                byte.is_ascii_graphic() && byte != b':' && byte != b';'
            }),
            None => format!("{:x}", hash(&uri)),
        };
        let is_sent = (1..=LONGEST_URI).contains(&uri.len()) && id.len() <= LONGEST_ID;
        is_sent.then_some(Link { id, uri })
    }
}

/// A text in which each byte but those that stay is `%` and two digits.
fn encoded(text: &str, stays: fn(u8) -> bool) -> String {
    let mut out = String::with_capacity(text.len());
    for byte in text.bytes() {
        if stays(byte) {
            out.push(byte.into());
        } else {
            write!(out, "%{byte:02X}").unwrap_or_default();
        }
    }
    out
}

/// The 32-bit hash of Fowler, Noll and Vo, of the kind 1a.
fn hash(text: &str) -> u32 {
    text.bytes().fold(0x811c_9dc5, |hash: u32, byte| {
        (hash ^ u32::from(byte)).wrapping_mul(0x0100_0193)
    })
}

#[cfg(test)]
mod tests {
    use super::*;

    #[test]
    fn links_are_printable() {
        let link = Link::new("http://か/a b;c\x1b\\%", Some("a:b;c\x07")).unwrap();
        assert_eq!(link.uri, "http://%E3%81%8B/a%20b;c%1B\\%");
        assert_eq!(link.id, "a%3Ab%3Bc%07");
        assert_eq!(Link::new("a", None).unwrap().id, "e40c292c");
    }

    #[test]
    fn some_links_are_left_out() {
        assert_eq!(Link::new("", None), None);
        assert!(Link::new(&"x".repeat(LONGEST_URI), None).is_some());
        assert!(Link::new(&"x".repeat(LONGEST_URI + 1), None).is_none());
        assert!(Link::new("x", Some(&"x".repeat(LONGEST_ID + 1))).is_none());
    }

    #[test]
    fn blanks_have_what_is_seen() {
        let red = ColorAttribute::PaletteIndex(1);
        let plain = Attributes {
            italic: true,
            invisible: true,
            foreground: red,
            background: red,
            ..Attributes::default()
        };
        let options = Options::new(1, 1);
        let blank = Pen::new(&plain, None, &options).of_blank();
        let wanted = Attributes {
            background: red,
            ..Attributes::default()
        };
        assert_eq!(*blank.style, wanted);
        assert!(blank.is_erased(&options));
        assert!(!blank.is_erased(&options.erases_with_background(false)));
        let marked = Attributes {
            reverse: true,
            ..plain
        };
        let blank = Pen::new(&marked, None, &options).of_blank();
        assert_eq!(*blank.style, marked);
        assert!(!blank.is_erased(&options));
    }
}
