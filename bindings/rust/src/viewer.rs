//! Viewers, which show what a surface of their process shows.

use crate::error::Error;
use crate::ffi;
use crate::handle::Handle;
use crate::screen::Screen;
use std::ops::Deref;

/// Shows what a surface of this process showed when it followed last.
///
/// ```
/// use tikeburo::{Error, Surface, Viewer};
///
/// let mut surface = Surface::new(8, 2)?;
/// let mut viewer = Viewer::new(&surface)?;
/// surface.add_change("one")?;
/// viewer.follow(&surface)?;
/// surface.add_change(" two")?;
/// assert_eq!(viewer.screen().row(0).text()?.trim_end(), "one");
/// # Ok::<(), Error>(())
/// ```
#[derive(Debug)]
pub struct Viewer {
    screen: Screen,
}

impl Viewer {
    /// A viewer for a surface, which shows nothing yet, and measures texts as the surface does.
    ///
    /// # Errors
    ///
    /// [`Error::Memory`].
    pub fn new(source: &Screen) -> Result<Viewer, Error> {
        // Safety: the first handle is all zero before, the second is live, and they are two.
        let handle = Handle::made(|handle| unsafe {
            ffi::tk_viewer_new_distinct(handle, source.handle.get())
        })?;
        Ok(Viewer {
            screen: Screen::new(handle, source.widths()),
        })
    }

    /// Shows what the source shows: its size too. It makes the changes since it followed last,
    /// where that was the same surface and those are known, and else all anew; of a viewer or a
    /// client always all.
    ///
    /// # Errors
    ///
    /// [`Error::OtherWidths`]: the source measures texts by other [widths](Screen::widths), and
    /// nothing has changed. [`Error::Memory`] and [`Error::Numbers`]: it may show anything, and the
    /// next call follows as ever.
    pub fn follow(&mut self, source: &Screen) -> Result<(), Error> {
        // Safety: both handles are live, and they are two, since one is borrowed alone.
        Error::check(unsafe {
            ffi::tk_follow_distinct(self.screen.handle.get(), source.handle.get())
        })
    }

    /// What it shows.
    #[must_use]
    pub fn screen(&self) -> &Screen {
        &self.screen
    }
}

/// What it shows.
impl Deref for Viewer {
    type Target = Screen;

    fn deref(&self) -> &Screen {
        &self.screen
    }
}
