//! Links, at the path that termwiz has for them.

#[doc(no_inline)]
pub use crate::attributes::Hyperlink;
