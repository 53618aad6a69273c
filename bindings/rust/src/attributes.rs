//! Attributes of texts.

use crate::color::ColorAttribute;
use crate::error::Error;
use crate::ffi::tk_attributes;
use std::fmt;

/// Finds the variants of an enum by their numbers, which the header for C has in this order.
macro_rules! number_variants {
    ($name:ident: $($variant:ident),+) => {
        /// The variant of this number, from 0 on in their order, or else [`Error::Range`].
        impl TryFrom<u8> for $name {
            type Error = Error;

            fn try_from(number: u8) -> Result<$name, Error> {
                let all = [$($name::$variant),+];
                all.get(usize::from(number)).copied().ok_or(Error::Range)
            }
        }
    };
}

pub(crate) use number_variants;

number_variants!(Intensity: Normal, Bold, Half);
number_variants!(Underline: None, Single, Double, Curly, Dotted, Dashed);
number_variants!(Blink: None, Slow, Rapid);
number_variants!(SemanticType: Output, Input, Prompt);
number_variants!(VerticalAlign: BaseLine, SuperScript, SubScript);

/// How bold a text is.
#[derive(Clone, Copy, PartialEq, Eq, Hash, Debug, Default)]
pub enum Intensity {
    /// Neither bold nor dim.
    #[default]
    Normal,
    /// Bold.
    Bold,
    /// Dim.
    Half,
}

/// How a text is underlined.
#[derive(Clone, Copy, PartialEq, Eq, Hash, Debug, Default)]
pub enum Underline {
    /// Not at all.
    #[default]
    None,
    /// By one line.
    Single,
    /// By two lines.
    Double,
    /// By a wave.
    Curly,
    /// By dots.
    Dotted,
    /// By dashes.
    Dashed,
}

/// How a text blinks.
#[derive(Clone, Copy, PartialEq, Eq, Hash, Debug, Default)]
pub enum Blink {
    /// Not at all.
    #[default]
    None,
    /// Slowly.
    Slow,
    /// Fast.
    Rapid,
}

/// What a text is to a shell.
#[derive(Clone, Copy, PartialEq, Eq, Hash, Debug, Default)]
pub enum SemanticType {
    /// The output of a command.
    #[default]
    Output,
    /// What the user typed.
    Input,
    /// The shell's prompt.
    Prompt,
}

/// Where a text is placed on its line.
#[derive(Clone, Copy, PartialEq, Eq, Hash, Debug, Default)]
pub enum VerticalAlign {
    /// On the base line.
    #[default]
    BaseLine,
    /// Raised.
    SuperScript,
    /// Lowered.
    SubScript,
}

/// The attributes of a text: `termwiz`'s `CellAttributes`, as fields. A later version may have more
/// of them, so that a literal ends with `..Attributes::default()`.
///
/// ```
/// use tikeburo::{Attributes, ColorAttribute, Intensity};
///
/// let heading = Attributes {
///     intensity: Intensity::Bold,
///     background: ColorAttribute::PaletteIndex(4),
///     ..Attributes::default()
/// };
/// assert!(!heading.italic);
/// ```
#[derive(Clone, PartialEq, Eq, Hash, Debug, Default)]
#[repr(C)] // as the library has them, so that most are copied at once
pub struct Attributes {
    /// How bold it is.
    pub intensity: Intensity,
    /// How it is underlined.
    pub underline: Underline,
    /// How it blinks.
    pub blink: Blink,
    /// What it is to a shell.
    pub semantic_type: SemanticType,
    /// Where it is placed on its line.
    pub vertical_align: VerticalAlign,
    /// Whether it is slanted.
    pub italic: bool,
    /// Whether foreground and background are swapped.
    pub reverse: bool,
    /// Whether a line goes through it.
    pub strikethrough: bool,
    /// Whether it is hidden.
    pub invisible: bool,
    /// Whether the row was wrapped after this cell.
    pub wrapped: bool,
    /// Whether there is a line above it.
    pub overline: bool,
    /// The text's colour.
    pub foreground: ColorAttribute,
    /// The background.
    pub background: ColorAttribute,
    /// The colour of the line below it.
    pub underline_color: ColorAttribute,
    /// What it links to.
    pub hyperlink: Option<Hyperlink>,
}

impl Attributes {
    /// The attributes that the library wrote, and this link.
    pub(crate) fn new(read: &tk_attributes, hyperlink: Option<Hyperlink>) -> Attributes {
        Attributes {
            intensity: read.intensity.try_into().unwrap_or_default(),
            underline: read.underline.try_into().unwrap_or_default(),
            blink: read.blink.try_into().unwrap_or_default(),
            semantic_type: read.semantic_type.try_into().unwrap_or_default(),
            vertical_align: read.vertical_align.try_into().unwrap_or_default(),
            italic: read.italic,
            reverse: read.reverse,
            strikethrough: read.strikethrough,
            invisible: read.invisible,
            wrapped: read.wrapped,
            overline: read.overline,
            foreground: read.foreground.into(),
            background: read.background.into(),
            underline_color: read.underline_color.into(),
            hyperlink,
        }
    }
}

/// The attributes as the library reads them, without their link.
impl From<&Attributes> for tk_attributes {
    // Apart, so that callers get the fields as they lie in memory, and not one by one.
    #[inline(never)]
    fn from(attributes: &Attributes) -> tk_attributes {
        let mut fields = tk_attributes {
            intensity: attributes.intensity as u8,
            underline: attributes.underline as u8,
            blink: attributes.blink as u8,
            semantic_type: attributes.semantic_type as u8,
            vertical_align: attributes.vertical_align as u8,
            italic: attributes.italic,
            reverse: attributes.reverse,
            strikethrough: attributes.strikethrough,
            invisible: attributes.invisible,
            wrapped: attributes.wrapped,
            overline: attributes.overline,
            ..tk_attributes::default()
        };
        fields.foreground.choose(attributes.foreground);
        fields.background.choose(attributes.background);
        fields.underline_color.choose(attributes.underline_color);
        fields
    }
}

/// A link, which a text may have: to a uri, and with an id or none.
#[derive(Clone, PartialEq, Eq, Hash)]
pub struct Hyperlink {
    /// The uri, and the id behind it, as the library reads them.
    text: Box<str>,
    id_len: usize,
}

impl Hyperlink {
    /// A link to this uri.
    #[must_use]
    pub fn new(uri: impl Into<String>) -> Hyperlink {
        Hyperlink {
            text: uri.into().into_boxed_str(),
            id_len: 0,
        }
    }

    /// A link to this uri with this id: texts that have such links are one link to a terminal,
    /// wherever they stand. An empty id is none.
    ///
    /// ```
    /// use tikeburo::{AttributeChange, Error, Hyperlink, Surface};
    ///
    /// let mut surface = Surface::new(8, 2)?;
    /// let link = Hyperlink::new_with_id("https://example.org/", "7");
    /// surface.add_change(AttributeChange::Hyperlink(Some(link.clone())))?;
    /// surface.add_change("a link in two rows")?;
    /// let cell = surface.row(1).cell(0)?;
    /// assert_eq!(cell.attrs().hyperlink(), Some(&link));
    /// assert_eq!((link.uri(), link.id()), ("https://example.org/", Some("7")));
    /// # Ok::<(), Error>(())
    /// ```
    #[must_use]
    pub fn new_with_id(uri: impl Into<String>, id: impl Into<String>) -> Hyperlink {
        let (mut text, id) = (uri.into(), id.into());
        text.push_str(&id);
        Hyperlink {
            text: text.into_boxed_str(),
            id_len: id.len(),
        }
    }

    /// The link that a text is, of which this many bytes at the end are the id.
    pub(crate) fn of_text(text: &str, id_len: usize) -> Hyperlink {
        let text = text.into();
        Hyperlink { text, id_len }
    }

    /// The text that it is, and how many bytes at its end are the id.
    pub(crate) fn as_text(&self) -> (&str, usize) {
        (&self.text, self.id_len)
    }

    fn split(&self) -> (&str, &str) {
        self.text.split_at(self.text.len() - self.id_len)
    }

    /// What it links to.
    #[must_use]
    pub fn uri(&self) -> &str {
        self.split().0
    }

    /// Its id, if it has one.
    #[must_use]
    pub fn id(&self) -> Option<&str> {
        Some(self.split().1).filter(|id| !id.is_empty())
    }
}

impl fmt::Debug for Hyperlink {
    fn fmt(&self, f: &mut fmt::Formatter<'_>) -> fmt::Result {
        f.debug_struct("Hyperlink")
            .field("uri", &self.uri())
            .field("id", &self.id())
            .finish()
    }
}

/// A change of one attribute.
#[derive(Clone, PartialEq, Eq, Hash, Debug)]
#[non_exhaustive]
pub enum AttributeChange {
    /// How bold texts are.
    Intensity(Intensity),
    /// How they are underlined.
    Underline(Underline),
    /// Whether they are slanted.
    Italic(bool),
    /// How they blink.
    Blink(Blink),
    /// Whether foreground and background are swapped.
    Reverse(bool),
    /// Whether a line goes through them.
    StrikeThrough(bool),
    /// Whether they are hidden.
    Invisible(bool),
    /// Their colour.
    Foreground(ColorAttribute),
    /// The background.
    Background(ColorAttribute),
    /// What they link to.
    Hyperlink(Option<Hyperlink>),
}
