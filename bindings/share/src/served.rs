//! A surface as viewers follow it.

use crate::hub::{Screen, Shown};
use hyper::body::Bytes;
use tikeburo::{AnswerHead, Ask, Error, Surface};

pub struct Served<'a>(pub &'a mut Surface);

impl Screen for Served<'_> {
    type Error = Error;

    fn shown(&self) -> Shown {
        let ask = self.0.current_ask(); // a surface's own can always be read
        let source = ask.source().unwrap_or_default();
        let number = ask.number().unwrap_or_default();
        Shown { source, number }
    }

    fn delta(&mut self, number: u64) -> Result<Option<Bytes>, Error> {
        let answer = self.0.respond(&Ask::new(self.shown().source, number))?;
        let is_delta = !AnswerHead::read(&answer)?.is_repaint();
        Ok(is_delta.then(|| answer.into()))
    }

    fn repaint(&mut self) -> Result<Bytes, Error> {
        Ok(self.0.respond(&Ask::default())?.into())
    }
}

#[cfg(test)]
mod tests {
    use super::*;
    use tikeburo::Client;

    fn feed(client: &mut Client, bytes: &[u8]) -> String {
        client.feed(bytes).unwrap();
        client.screen().to_string()
    }

    #[test]
    fn answers_lead_to_what_the_surface_shows() {
        let mut surface = Surface::new(8, 2).unwrap();
        surface.add_change("one").unwrap();
        let mut client = Client::new().unwrap();
        let mut served = Served(&mut surface);
        let first = served.shown();
        let all = served.repaint().unwrap();
        assert_eq!(feed(&mut client, &all), surface.to_string());
        surface.add_change(" two").unwrap();
        let mut served = Served(&mut surface);
        assert_eq!(served.shown().source, first.source);
        let delta = served.delta(first.number).unwrap().unwrap();
        assert!(delta.len() < all.len());
        assert_eq!(feed(&mut client, &delta), surface.to_string());
    }

    #[test]
    fn where_a_delta_would_be_longer_there_is_none() {
        let mut surface = Surface::new(2, 1).unwrap();
        surface.add_change("a").unwrap();
        let first = Served(&mut surface).shown();
        for _ in 0..100 {
            surface.add_change("\rb").unwrap();
        }
        assert_eq!(Served(&mut surface).delta(first.number), Ok(None));
    }
}
