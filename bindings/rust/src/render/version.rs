//! Which screen was read, and when.

use crate::change::SequenceNo;
use crate::error::Error;
use crate::screen::Screen;

/// A screen, and the number of its coming change when its rows were read.
#[derive(Clone, Copy, PartialEq, Eq, Debug)]
pub(super) struct Version {
    screen: u64,
    number: SequenceNo,
}

impl Version {
    pub fn of(screen: &Screen) -> Version {
        Version {
            screen: screen.identity(),
            number: screen.current_seqno(),
        }
    }

    /// For each row of a screen whether it may show something else than when it had this version.
    /// Of another screen than this version's nothing is known.
    ///
    /// # Errors
    ///
    /// [`Error::Memory`].
    pub fn changed_rows(self, screen: &Screen) -> Result<Option<Vec<bool>>, Error> {
        if self.screen != screen.identity() {
            return Ok(None);
        }
        screen.changed_rows(self.number).map(Some)
    }
}

#[cfg(test)]
mod tests {
    use super::*;
    use crate::client::Client;
    use crate::surface::Surface;
    use crate::viewer::Viewer;

    #[test]
    fn a_surface_says_which_rows_changed() {
        let mut surface = Surface::new(4, 3).unwrap();
        let first = Version::of(&surface);
        surface.add_change("one\r\ntwo").unwrap();
        let old = Version::of(&surface);
        surface.add_change("!").unwrap();
        let new = Version::of(&surface);
        let changed = |version: Version| version.changed_rows(&surface).unwrap();
        assert_eq!(changed(new), Some(vec![false, false, false]));
        assert_eq!(changed(old), Some(vec![false, true, false]));
        assert_eq!(changed(first), Some(vec![true, true, true]));

        let other = Surface::new(4, 3).unwrap();
        assert_eq!(changed(Version::of(&other)), None);
    }

    /// Brings both what the surface shows.
    fn bring(surface: &mut Surface, viewer: &mut Viewer, client: &mut Client) {
        viewer.follow(surface).unwrap();
        let answer = surface.respond(&client.ask().unwrap()).unwrap();
        client.feed(&answer).unwrap();
    }

    #[test]
    fn a_viewer_and_a_client_do_too() {
        let mut surface = Surface::new(4, 3).unwrap();
        let mut viewer = Viewer::new(&surface).unwrap();
        let mut client = Client::new().unwrap();
        surface.add_change("one\r\ntwo").unwrap();
        bring(&mut surface, &mut viewer, &mut client);
        let (viewed, fed) = (Version::of(&viewer), Version::of(&client));

        surface.add_change("!").unwrap();
        bring(&mut surface, &mut viewer, &mut client);
        let second = Some(vec![false, true, false]);
        assert_eq!(viewed.changed_rows(&viewer).unwrap(), second);
        assert_eq!(fed.changed_rows(&client).unwrap(), second);

        // Of another surface all is shown anew.
        let mut other = Surface::new(4, 3).unwrap();
        bring(&mut other, &mut viewer, &mut client);
        let all = Some(vec![true; 3]);
        assert_eq!(viewed.changed_rows(&viewer).unwrap(), all);
        assert_eq!(fed.changed_rows(&client).unwrap(), all);
    }
}
