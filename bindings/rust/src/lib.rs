//! Surfaces of a terminal, viewers and clients that show them, and the bytes between.
//!
//! A [`Surface`] holds what a terminal's screen shows, with no terminal behind it. [`Change`]s go
//! in. A [`Client`] shows what the surface shows, in this process or in another one: it asks, and
//! the surface answers by the bytes that bring it from what it shows to what the surface shows.
//!
//! ```
//! use tikeburo::{Client, Surface};
//!
//! let mut surface = Surface::new(12, 2)?;
//! let mut client = Client::new()?;
//! surface.add_change("hello か\r\nsame screen")?;
//!
//! let ask = client.ask()?; // over any connection
//! let bytes = surface.respond(&ask)?; // and back
//! client.feed(&bytes)?;
//! assert_eq!(client.screen().row(1).text()?.trim_end(), "same screen");
//! # Ok::<(), tikeburo::Error>(())
//! ```
//!
//! The names are those of `termwiz`, and so are the modules; the crate's page has termwiz's calls
//! beside those here. What does the work is a library for C, which is proved; this crate calls it,
//! and is tested. It looks for the library in the folder that `TIKEBURO_LIB` names,
//! in its own checkout, and by `pkg-config`.
//!
//! [`Changes`] is a list of changes that is made in place: for those who make many. [`Lines`] keeps
//! rows that a surface no longer shows, as a terminal's scrollback does.
//!
//! # Any number of surfaces
//!
//! Each surface has a random number of 64 bits, which its answers carry. A client that is fed the
//! answers of several surfaces, late, twice or in any order, shows what the one that it took last
//! showed, and never a mixture.
//!
//! # Errors and memory
//!
//! A call returns an [`Error`] for all that may go wrong in the library, also where memory is
//! refused to it; it never panics. What this crate takes itself, for texts and bytes, is of Rust's
//! allocator, which aborts where memory is refused.
//!
//! # Threads
//!
//! A [`Surface`], a [`Viewer`], a [`Client`] and [`Lines`] may move to another thread: they are
//! `Send`, and no two of them share memory. They are not `Sync`, since calls that read write too:
//! where threads take turns, a `Mutex` has them.
//!
//! ```
//! use std::{sync::Mutex, thread};
//! use tikeburo::{Error, Surface};
//!
//! let surface = Mutex::new(Surface::new(8, 2)?);
//! thread::scope(|scope| {
//!     for text in ["one ", "two "] {
//!         let surface = &surface;
//!         scope.spawn(move || surface.lock().unwrap().add_change(text).map(drop));
//!     }
//! });
//! let shown = surface.into_inner().unwrap().row(0).text()?;
//! assert!(shown == "one two " || shown == "two one ");
//! # Ok::<(), Error>(())
//! ```
//!
//! ```compile_fail,E0277
//! fn share<T: Sync>(_: T) {}
//! share(tikeburo::Surface::new(80, 24));
//! ```
//!
//! One thread may also own a surface, and others send it what they want; this is
//! `examples/owner.rs`:
//!
//! ```
#![doc = include_str!("../examples/owner.rs")]
//! ```
#![deny(missing_docs)]
#![deny(unsafe_op_in_unsafe_fn)]
#![warn(clippy::missing_errors_doc, clippy::must_use_candidate)]

mod ansi;
mod answer;
mod attributes;
pub mod cell;
mod change;
mod changes;
mod client;
pub mod color;
mod diff;
mod error;
mod fault;
mod ffi;
mod graphemes;
mod handle;
mod head;
pub mod hyperlink;
mod lines;
mod listed;
mod recording;
pub mod render;
mod rows;
mod screen;
mod sequence;
mod setters;
mod sgr;
pub mod surface;
mod viewer;
mod widths;

/// Tests the programs of the crate's page.
#[cfg(doctest)]
#[doc = include_str!("../README.md")]
struct Readme;

pub use ansi::AnsiColor;
pub use answer::AnswerHead;
pub use attributes::{
    AttributeChange, Attributes, Blink, Hyperlink, Intensity, SemanticType, Underline,
    VerticalAlign,
};
pub use change::{
    Change, CursorShape, CursorVisibility, LineAttribute, Position, SequenceNo, SEQ_ZERO,
};
pub use changes::Changes;
pub use client::{Ask, Client, Limits, Taken};
#[doc(inline)]
pub use color::{ColorAttribute, PaletteIndex, RgbColor};
pub use error::Error;
pub use fault::{Fault, FaultKind};
pub use graphemes::{graphemes, text_width};
pub use lines::Lines;
pub use recording::Recorder;
pub use rows::{Cell, Cells, Row, RowBuffer, RowCell, Rows};
pub use screen::Screen;
pub use sequence::ChangeSequence;
pub use setters::CellAttributes;
#[doc(inline)]
pub use surface::{Options, Surface};
pub use viewer::Viewer;
pub use widths::{WidthRange, WidthTable, Widths};
