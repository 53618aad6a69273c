//! Cells and their attributes, at the path that termwiz has for them.

#[doc(no_inline)]
pub use crate::attributes::{
    AttributeChange, Blink, Intensity, SemanticType, Underline, VerticalAlign,
};
#[doc(no_inline)]
pub use crate::rows::Cell;
#[doc(no_inline)]
pub use crate::setters::CellAttributes;
