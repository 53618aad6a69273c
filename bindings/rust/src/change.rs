//! Changes of surfaces.

use crate::attributes::{number_variants, AttributeChange, Attributes};
use crate::color::ColorAttribute;
use crate::error::Error;

/// The number of a change.
pub type SequenceNo = usize;

/// The number of a surface's first change.
pub const SEQ_ZERO: SequenceNo = 0;

/// A place on one axis of a surface, from 0 on.
#[derive(Clone, Copy, PartialEq, Eq, Hash, Debug)]
pub enum Position {
    /// So far from where the cursor is; below 0 to the left or up.
    Relative(isize),
    /// So far from the first column or row.
    Absolute(usize),
    /// So far from the end.
    EndRelative(usize),
}

/// Whether the cursor is shown.
#[derive(Clone, Copy, PartialEq, Eq, Hash, Debug, Default)]
pub enum CursorVisibility {
    /// It isn't.
    Hidden,
    /// It is.
    #[default]
    Visible,
}

impl From<bool> for CursorVisibility {
    fn from(is_visible: bool) -> CursorVisibility {
        if is_visible {
            CursorVisibility::Visible
        } else {
            CursorVisibility::Hidden
        }
    }
}

/// How the cursor is drawn. The numbers of the shapes are those of `CSI Ps SP q`.
#[derive(Clone, Copy, PartialEq, Eq, Hash, Debug, Default)]
pub enum CursorShape {
    /// As the terminal does by itself.
    #[default]
    Default,
    /// A block that blinks.
    BlinkingBlock,
    /// A block.
    SteadyBlock,
    /// A line below, which blinks.
    BlinkingUnderline,
    /// A line below.
    SteadyUnderline,
    /// A bar before, which blinks.
    BlinkingBar,
    /// A bar before.
    SteadyBar,
}

number_variants!(
    CursorShape: Default,
    BlinkingBlock,
    SteadyBlock,
    BlinkingUnderline,
    SteadyUnderline,
    BlinkingBar,
    SteadyBar
);

impl CursorShape {
    /// Whether it is one of the shapes that blink.
    #[must_use]
    pub fn is_blinking(self) -> bool {
        use CursorShape::{BlinkingBar, BlinkingBlock, BlinkingUnderline};
        matches!(self, BlinkingBlock | BlinkingUnderline | BlinkingBar)
    }
}

/// How large a line is shown.
#[derive(Clone, Copy, PartialEq, Eq, Hash, Debug)]
pub enum LineAttribute {
    /// The upper half of a line of double height.
    DoubleHeightTopHalfLine,
    /// The lower half of one.
    DoubleHeightBottomHalfLine,
    /// Double width.
    DoubleWidthLine,
    /// As usual.
    SingleWidthLine,
}

number_variants!(
    LineAttribute: DoubleHeightTopHalfLine,
    DoubleHeightBottomHalfLine,
    DoubleWidthLine,
    SingleWidthLine
);

/// A change of a surface. It acts at the cursor and with the pen, which is the attributes of coming
/// texts, that the changes before it left.
#[derive(Clone, PartialEq, Eq, Hash, Debug)]
#[non_exhaustive]
pub enum Change {
    /// Sets one attribute of the pen.
    Attribute(AttributeChange),
    /// Sets the whole pen.
    AllAttributes(Attributes),
    /// Prints a text at the cursor. CR goes to the first column, LF to the next row, and below the
    /// last row the rows scroll up. Other control characters of ASCII are spaces.
    Text(String),
    /// Clears all and goes home. What is cleared, and the pen, have this background and no other
    /// attribute, here and at the other clears.
    ClearScreen(ColorAttribute),
    /// Clears from the cursor to its row's end.
    ClearToEndOfLine(ColorAttribute),
    /// Clears from the cursor to the last row's end.
    ClearToEndOfScreen(ColorAttribute),
    /// Moves the cursor, as far as it goes.
    CursorPosition {
        /// The column.
        x: Position,
        /// The row.
        y: Position,
    },
    /// Sets the cursor's colour.
    CursorColor(ColorAttribute),
    /// Sets the cursor's shape.
    CursorShape(CursorShape),
    /// Shows or hides the cursor.
    CursorVisibility(CursorVisibility),
    /// Takes rows off the top of a region, and adds as many default ones at its bottom.
    ScrollRegionUp {
        /// The region's first row.
        first_row: usize,
        /// How many rows it has.
        region_size: usize,
        /// How many rows are taken, at most all.
        scroll_count: usize,
    },
    /// Takes rows off the bottom of a region, and adds as many default ones at its top.
    ScrollRegionDown {
        /// The region's first row.
        first_row: usize,
        /// How many rows it has.
        region_size: usize,
        /// How many rows are taken, at most all.
        scroll_count: usize,
    },
    /// Sets the title.
    Title(String),
    /// Sets how large the cursor's line is shown.
    LineAttribute(LineAttribute),
}

impl Change {
    /// Whether it prints a text.
    #[must_use]
    pub fn is_text(&self) -> bool {
        matches!(self, Change::Text(_))
    }
}

impl<T: Into<String>> From<T> for Change {
    fn from(text: T) -> Change {
        Change::Text(text.into())
    }
}

impl From<AttributeChange> for Change {
    fn from(change: AttributeChange) -> Change {
        Change::Attribute(change)
    }
}

impl From<LineAttribute> for Change {
    fn from(attribute: LineAttribute) -> Change {
        Change::LineAttribute(attribute)
    }
}
