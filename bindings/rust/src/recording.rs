//! Recordings: answers with their times, which the page in JavaScript plays.

use crate::client::Ask;
use crate::head::{self, ARRAY, BYTES, UNSIGNED};
use crate::surface::Surface;
use std::io::{self, Write};
use std::time::{Duration, Instant};

/// Records a surface: writes answers with their times, as `bindings/js` plays them.
///
/// ```
/// use tikeburo::{Recorder, Surface};
///
/// let mut surface = Surface::new(8, 2)?;
/// let mut recorder = Recorder::new(Vec::new());
/// for text in ["tick", " tock"] {
///     surface.add_change(text)?;
///     recorder.record(&mut surface)?;
/// }
/// assert!(!recorder.into_inner().is_empty());
/// # Ok::<(), Box<dyn std::error::Error>>(())
/// ```
#[derive(Debug)]
pub struct Recorder<W> {
    out: W,
    began: Instant,
    kept: Ask,
}

impl<W: Write> Recorder<W> {
    /// A recording that begins now, and goes to where this writes.
    pub fn new(out: W) -> Recorder<W> {
        Recorder {
            out,
            began: Instant::now(),
            kept: Ask::default(),
        }
    }

    /// Keeps what the surface shows now, in one write, if that is new.
    ///
    /// # Errors
    ///
    /// Those of the write, and [`Error`](crate::Error) as the source of another one. What was to be
    /// kept is kept by the next call, if nothing of it was written.
    pub fn record(&mut self, surface: &mut Surface) -> io::Result<()> {
        let now = surface.current_ask();
        if now != self.kept {
            let answer = surface.respond(&self.kept);
            let answer = answer.map_err(|error| io::Error::new(io::ErrorKind::Other, error))?;
            self.out.write_all(&entry(self.began.elapsed(), &answer))?;
            self.kept = now;
        }
        Ok(())
    }

    /// Where it writes.
    pub fn into_inner(self) -> W {
        self.out
    }
}

/// `[milliseconds, bytes]`, as CBOR.
fn entry(time: Duration, bytes: &[u8]) -> Vec<u8> {
    let mut entry = Vec::new();
    head::put(&mut entry, ARRAY, 2);
    head::put(&mut entry, UNSIGNED, time.as_millis() as u64);
    head::put(&mut entry, BYTES, bytes.len() as u64);
    entry.extend_from_slice(bytes);
    entry
}

#[cfg(test)]
mod tests {
    use super::*;
    use crate::client::Client;

    #[test]
    fn an_entry_has_its_time_and_bytes() {
        let long = entry(Duration::from_micros(1_500_999), &[7; 24]);
        assert_eq!(long[..6], [0x82, 0x19, 0x05, 0xdc, 0x58, 24]);
        assert_eq!(long[6..], [7; 24]);
        assert_eq!(entry(Duration::ZERO, &[]), [0x82, 0x00, 0x40]);
    }

    /// The answer of an entry of the first 23 milliseconds or so, and what follows it.
    fn split(bytes: &[u8]) -> (&[u8], &[u8]) {
        let width = |info: u8| match info & 31 {
            info @ 24.. => 1 << (info - 24),
            _ => 0,
        };
        let time = 2 + width(bytes[1]);
        let size = time + 1 + width(bytes[time]);
        let length = bytes[time + 1..size]
            .iter()
            .fold(0, |sum, byte| sum << 8 | usize::from(*byte));
        let length = if size == time + 1 {
            usize::from(bytes[time] & 31)
        } else {
            length
        };
        bytes[size..].split_at(length)
    }

    #[test]
    fn what_is_new_is_kept_once() {
        let mut surface = Surface::new(8, 2).unwrap();
        let mut recorder = Recorder::new(Vec::new());
        let mut client = Client::new().unwrap();
        let mut shown = Vec::new();
        for text in ["one", "", " か", "\r\nlast"] {
            surface.add_change(text).unwrap();
            recorder.record(&mut surface).unwrap();
            recorder.record(&mut surface).unwrap();
            shown.push(surface.to_string());
        }
        let bytes = recorder.into_inner();
        let mut rest = &bytes[..];
        for text in shown {
            assert_eq!(rest[0], 0x82);
            let (answer, after) = split(rest);
            client.feed(answer).unwrap();
            assert_eq!(client.screen().to_string(), text);
            rest = after;
        }
        assert!(rest.is_empty());
    }

    #[test]
    fn what_failed_to_be_written_is_kept_later() {
        struct Full(bool, Vec<u8>);
        impl Write for Full {
            fn write(&mut self, bytes: &[u8]) -> io::Result<usize> {
                if std::mem::take(&mut self.0) {
                    return Err(io::ErrorKind::Other.into());
                }
                self.1.write(bytes)
            }

            fn flush(&mut self) -> io::Result<()> {
                Ok(())
            }
        }
        let mut surface = Surface::new(8, 2).unwrap();
        let mut recorder = Recorder::new(Full(true, Vec::new()));
        surface.add_change("one").unwrap();
        assert!(recorder.record(&mut surface).is_err());
        recorder.record(&mut surface).unwrap();
        let bytes = recorder.into_inner().1;
        let mut client = Client::new().unwrap();
        client.feed(split(&bytes).0).unwrap();
        assert_eq!(client.screen().to_string(), surface.to_string());
    }
}
