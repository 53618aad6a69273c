//! The calls that termwiz has for each attribute, beside the fields.

use crate::attributes::{
    AttributeChange, Attributes, Blink, Hyperlink, Intensity, SemanticType, Underline,
    VerticalAlign,
};
use crate::color::ColorAttribute;
use crate::ffi::{tk_attributes, tk_color};

/// [`Attributes`], by termwiz's name.
pub type CellAttributes = Attributes;

/// For each field, the call that returns its value, and the one that sets it.
macro_rules! calls {
    ($($field:ident, $set:ident: $type:ty, $what:literal;)+) => {
        impl Attributes {
            $(
                #[doc = concat!("Returns ", $what, ".")]
                #[must_use]
                pub fn $field(&self) -> $type {
                    self.$field
                }

                #[doc = concat!("Sets ", $what, ".")]
                pub fn $set(&mut self, value: $type) -> &mut Attributes {
                    self.$field = value;
                    self
                }
            )+
        }
    };
}

calls! {
    intensity, set_intensity: Intensity, "how bold the text is";
    underline, set_underline: Underline, "how it is underlined";
    blink, set_blink: Blink, "how it blinks";
    italic, set_italic: bool, "whether it is slanted";
    reverse, set_reverse: bool, "whether foreground and background are swapped";
    strikethrough, set_strikethrough: bool, "whether a line goes through it";
    invisible, set_invisible: bool, "whether it is hidden";
    wrapped, set_wrapped: bool, "whether the row was wrapped after this cell";
    overline, set_overline: bool, "whether there is a line above it";
    semantic_type, set_semantic_type: SemanticType, "what it is to a shell";
    vertical_align, set_vertical_align: VerticalAlign, "where it is placed on its line";
}

impl Attributes {
    /// The default attributes.
    #[must_use]
    pub fn blank() -> Attributes {
        Attributes::default()
    }

    /// Sets all attributes to the default ones.
    pub fn clear(&mut self) {
        *self = Attributes::default();
    }

    /// Returns the text's colour.
    #[must_use]
    pub fn foreground(&self) -> ColorAttribute {
        self.foreground
    }

    /// Sets the text's colour.
    ///
    /// ```
    /// use tikeburo::{AnsiColor, CellAttributes, Intensity};
    ///
    /// let mut heading = CellAttributes::default();
    /// heading.set_intensity(Intensity::Bold).set_foreground(AnsiColor::Navy);
    /// assert_eq!(heading.foreground(), AnsiColor::Navy.into());
    /// ```
    pub fn set_foreground(&mut self, color: impl Into<ColorAttribute>) -> &mut Attributes {
        self.foreground = color.into();
        self
    }

    /// Returns the background.
    #[must_use]
    pub fn background(&self) -> ColorAttribute {
        self.background
    }

    /// Sets the background.
    pub fn set_background(&mut self, color: impl Into<ColorAttribute>) -> &mut Attributes {
        self.background = color.into();
        self
    }

    /// Returns the colour of the line below the text.
    #[must_use]
    pub fn underline_color(&self) -> ColorAttribute {
        self.underline_color
    }

    /// Sets the colour of the line below the text.
    pub fn set_underline_color(&mut self, color: impl Into<ColorAttribute>) -> &mut Attributes {
        self.underline_color = color.into();
        self
    }

    /// Returns what the text links to.
    #[must_use]
    pub fn hyperlink(&self) -> Option<&Hyperlink> {
        self.hyperlink.as_ref()
    }

    /// Sets what the text links to.
    pub fn set_hyperlink(&mut self, link: Option<Hyperlink>) -> &mut Attributes {
        self.hyperlink = link;
        self
    }

    /// Sets the attribute that a change names.
    pub fn apply_change(&mut self, change: &AttributeChange) {
        match change {
            AttributeChange::Intensity(intensity) => self.intensity = *intensity,
            AttributeChange::Underline(underline) => self.underline = *underline,
            AttributeChange::Italic(is_on) => self.italic = *is_on,
            AttributeChange::Blink(blink) => self.blink = *blink,
            AttributeChange::Reverse(is_on) => self.reverse = *is_on,
            AttributeChange::StrikeThrough(is_on) => self.strikethrough = *is_on,
            AttributeChange::Invisible(is_on) => self.invisible = *is_on,
            AttributeChange::Foreground(color) => self.foreground = *color,
            AttributeChange::Background(color) => self.background = *color,
            AttributeChange::Hyperlink(link) => self.hyperlink.clone_from(link),
        }
    }

    /// Returns what a cleared cell keeps of these attributes: all but the link, what the text is to
    /// a shell, and the lines below, above and through it.
    #[must_use]
    pub fn clone_sgr_only(&self) -> Attributes {
        Attributes {
            hyperlink: None,
            semantic_type: SemanticType::default(),
            underline: Underline::None,
            overline: false,
            strikethrough: false,
            ..self.clone()
        }
    }

    /// Whether all attributes are equal but the colours and the link.
    #[must_use]
    pub fn attribute_bits_equal(&self, other: &Attributes) -> bool {
        let bits = |attributes: &Attributes| tk_attributes {
            foreground: tk_color::default(),
            background: tk_color::default(),
            underline_color: tk_color::default(),
            ..attributes.into()
        };
        bits(self) == bits(other)
    }
}

/// Whether there is a line below the text.
impl From<Underline> for bool {
    fn from(underline: Underline) -> bool {
        underline != Underline::None
    }
}

/// Whether the text blinks.
impl From<Blink> for bool {
    fn from(blink: Blink) -> bool {
        blink != Blink::None
    }
}

#[cfg(test)]
mod tests {
    use super::*;
    use crate::ansi::AnsiColor;

    /// Attributes of which each differs from the default.
    fn all() -> Attributes {
        let mut attributes = CellAttributes::blank();
        attributes
            .set_intensity(Intensity::Half)
            .set_underline(Underline::Curly)
            .set_blink(Blink::Rapid)
            .set_italic(true)
            .set_reverse(true)
            .set_strikethrough(true)
            .set_invisible(true)
            .set_wrapped(true)
            .set_overline(true)
            .set_semantic_type(SemanticType::Prompt)
            .set_vertical_align(VerticalAlign::SubScript)
            .set_foreground(AnsiColor::Red)
            .set_background(AnsiColor::Blue)
            .set_underline_color(AnsiColor::Lime)
            .set_hyperlink(Some(Hyperlink::new("uri:a")));
        attributes
    }

    #[test]
    fn each_call_sets_its_field() {
        let wanted = Attributes {
            intensity: Intensity::Half,
            underline: Underline::Curly,
            blink: Blink::Rapid,
            italic: true,
            reverse: true,
            strikethrough: true,
            invisible: true,
            wrapped: true,
            overline: true,
            semantic_type: SemanticType::Prompt,
            vertical_align: VerticalAlign::SubScript,
            foreground: ColorAttribute::PaletteIndex(9),
            background: ColorAttribute::PaletteIndex(12),
            underline_color: ColorAttribute::PaletteIndex(10),
            hyperlink: Some(Hyperlink::new("uri:a")),
        };
        assert_eq!(all(), wanted);
        let mut cleared = all();
        cleared.clear();
        assert_eq!(cleared, Attributes::default());
    }

    #[test]
    fn a_change_sets_what_it_names() {
        let wanted = all();
        let mut changed = Attributes {
            wrapped: true,
            overline: true,
            semantic_type: wanted.semantic_type(),
            vertical_align: wanted.vertical_align(),
            underline_color: wanted.underline_color(),
            ..Attributes::default()
        };
        for change in [
            AttributeChange::Intensity(wanted.intensity()),
            AttributeChange::Underline(wanted.underline()),
            AttributeChange::Italic(wanted.italic()),
            AttributeChange::Blink(wanted.blink()),
            AttributeChange::Reverse(wanted.reverse()),
            AttributeChange::StrikeThrough(wanted.strikethrough()),
            AttributeChange::Invisible(wanted.invisible()),
            AttributeChange::Foreground(wanted.foreground()),
            AttributeChange::Background(wanted.background()),
            AttributeChange::Hyperlink(wanted.hyperlink().cloned()),
        ] {
            changed.apply_change(&change);
        }
        assert_eq!(changed, wanted);
    }

    #[test]
    fn a_cleared_cell_keeps_some() {
        let kept = all().clone_sgr_only();
        assert_eq!(kept.hyperlink(), None);
        assert_eq!(kept.semantic_type(), SemanticType::Output);
        assert!(!bool::from(kept.underline()) && !kept.overline() && !kept.strikethrough());
        let mut again = kept;
        again
            .set_hyperlink(all().hyperlink)
            .set_semantic_type(SemanticType::Prompt)
            .set_underline(Underline::Curly)
            .set_overline(true)
            .set_strikethrough(true);
        assert_eq!(again, all());
    }

    #[test]
    fn bits_are_all_but_colours_and_links() {
        let mut other = all();
        other.set_foreground(AnsiColor::Teal).set_hyperlink(None);
        assert!(all().attribute_bits_equal(&other));
        other.set_wrapped(false);
        assert!(!all().attribute_bits_equal(&other));
    }
}
