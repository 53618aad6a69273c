//! Clients, which show what a surface shows by way of bytes.

use crate::error::Error;
use crate::fault::Fault;
use crate::ffi::{self, tk_fault, tk_taken};
use crate::handle::{self, Handle};
use crate::head::{self, ARRAY, UNSIGNED};
use crate::screen::Screen;
use crate::widths::Widths;
use std::ops::Deref;

/// The version of the stream's form.
const VERSION: u64 = 2;

/// What a client asks of the surface whose answers it is fed: bytes, which can go over any
/// connection.
#[derive(Clone, PartialEq, Eq, Hash, Debug)]
pub struct Ask {
    bytes: Vec<u8>,
}

impl Ask {
    /// The ask of a client that shows this number of this source. Of no source, 0, the number is 0
    /// too: [`Surface::respond`](crate::Surface::respond) refuses any other.
    ///
    /// ```
    /// use tikeburo::Ask;
    ///
    /// let ask = Ask::new(1, 500);
    /// assert_eq!(ask.as_bytes(), [0x83, 2, 1, 0x19, 0x01, 0xf4]);
    /// assert_eq!((ask.source()?, ask.number()?), (1, 500));
    /// # Ok::<(), tikeburo::Error>(())
    /// ```
    #[must_use]
    pub fn new(source: u64, number: u64) -> Ask {
        let mut bytes = Vec::new();
        head::put(&mut bytes, ARRAY, 3);
        for value in [VERSION, source, number] {
            head::put(&mut bytes, UNSIGNED, value);
        }
        Ask { bytes }
    }

    /// Which source the client shows, by its number as a source, or 0 where it shows nothing yet.
    ///
    /// # Errors
    ///
    /// [`Error::Truncated`]: the bytes end before the ask does. [`Error::Unreadable`]: they are
    /// wrong at a byte, or more follow the ask.
    pub fn source(&self) -> Result<u64, Error> {
        self.parts().map(|(source, _)| source)
    }

    /// The number of its screen, from which an answer leads on.
    ///
    /// # Errors
    ///
    /// Those of [`Ask::source`].
    pub fn number(&self) -> Result<u64, Error> {
        self.parts().map(|(_, number)| number)
    }

    fn parts(&self) -> Result<(u64, u64), Error> {
        let mut rest = &self.bytes[..];
        if head::take(&mut rest, ARRAY)? != 3 || head::take(&mut rest, UNSIGNED)? != VERSION {
            return Err(Error::Unreadable);
        }
        let source = head::take(&mut rest, UNSIGNED)?;
        let number = head::take(&mut rest, UNSIGNED)?;
        match (source, number) {
            (0, 1..) => Err(Error::Unreadable),
            _ if !rest.is_empty() => Err(Error::Unreadable),
            parts => Ok(parts),
        }
    }

    /// Its bytes: one ask of `docs/stream.cddl`, 20 at most.
    #[must_use]
    pub fn as_bytes(&self) -> &[u8] {
        &self.bytes
    }

    /// Its bytes.
    #[must_use]
    pub fn into_bytes(self) -> Vec<u8> {
        self.bytes
    }
}

/// The ask of who shows nothing yet, as a new [`Client`].
impl Default for Ask {
    fn default() -> Ask {
        Ask::new(0, 0)
    }
}

/// The ask of these bytes, which [`Surface::respond`](crate::Surface::respond) judges.
impl From<Vec<u8>> for Ask {
    fn from(bytes: Vec<u8>) -> Ask {
        Ask { bytes }
    }
}

impl From<&[u8]> for Ask {
    fn from(bytes: &[u8]) -> Ask {
        Ask::from(bytes.to_vec())
    }
}

impl AsRef<[u8]> for Ask {
    fn as_ref(&self) -> &[u8] {
        self.as_bytes()
    }
}

impl From<Ask> for Vec<u8> {
    fn from(ask: Ask) -> Vec<u8> {
        ask.into_bytes()
    }
}

/// The most that an answer may have, which a client checks before it takes memory. It also takes no
/// answer of more than 65,536 rows, and none whose changes cost more than its screen bears.
///
/// ```
/// use tikeburo::{Client, Error, Limits, Widths};
///
/// let limits = Limits::new().cells(500 * 200);
/// let client = Client::with_limits(Widths::Unicode, limits)?;
/// # Ok::<(), Error>(())
/// ```
#[derive(Clone, Copy, PartialEq, Eq, Hash, Debug)]
pub struct Limits {
    cells: usize,
    bytes: usize,
}

impl Limits {
    /// The usual ones: 1,048,576 cells and 16,777,216 bytes.
    #[must_use]
    pub fn new() -> Limits {
        Limits {
            cells: 1 << 20,
            bytes: 1 << 24,
        }
    }

    /// The screen's width times its height.
    #[must_use]
    pub fn cells(self, cells: usize) -> Limits {
        Limits { cells, ..self }
    }

    /// The answer's bytes, from 1 on.
    #[must_use]
    pub fn bytes(self, bytes: usize) -> Limits {
        Limits { bytes, ..self }
    }
}

/// As [`Limits::new`].
impl Default for Limits {
    fn default() -> Limits {
        Limits::new()
    }
}

/// What came of an answer that a [`Client`] took.
#[derive(Clone, Copy, PartialEq, Eq, Hash, Debug)]
pub enum Taken {
    /// The client shows what the answer leads to.
    Shown,
    /// The answer is late, comes twice, or leads on from what another surface showed, and changed
    /// nothing.
    Stale {
        /// The byte where its source begins, or where that is the one shown its base, counted from
        /// the answer's first byte.
        at: usize,
    },
}

/// Shows what a surface of any process showed when it gave the answer that was fed last.
///
/// ```
/// use tikeburo::{Client, Error, Surface};
///
/// let mut surface = Surface::new(8, 2)?;
/// let mut client = Client::new()?;
/// for text in ["one", " two"] {
///     surface.add_change(text)?;
///     let answer = surface.respond(&client.ask()?)?;
///     for byte in answer {
///         client.feed(&[byte])?; // in any chunks
///     }
/// }
/// assert_eq!(client.screen().row(0).text()?.trim_end(), "one two");
/// # Ok::<(), Error>(())
/// ```
#[derive(Debug)]
pub struct Client {
    screen: Screen,
}

impl Client {
    /// A client that shows nothing yet, measures texts by Unicode, and has the usual limits.
    ///
    /// # Errors
    ///
    /// [`Error::Memory`].
    pub fn new() -> Result<Client, Error> {
        Client::with_limits(Widths::default(), Limits::default())
    }

    /// A client that shows nothing yet. An answer of a surface that measures in another way is the
    /// fault [`Measure`](crate::FaultKind::Measure), where the answer's texts show it.
    ///
    /// # Errors
    ///
    /// [`Error::Range`]: a limit of no bytes. [`Error::Memory`].
    pub fn with_limits(widths: Widths, limits: Limits) -> Result<Client, Error> {
        let Limits { cells, bytes } = limits;
        // Safety: the handle is all zero before, and a table stays as it is.
        let handle = Handle::made(|handle| match widths.number_or_table() {
            Ok(widths) => unsafe { ffi::tk_client_new(handle, widths, cells, bytes) },
            Err(table) => {
                let (ranges, count) = table.parts();
                unsafe { ffi::tk_client_new_by(handle, ranges, count, cells, bytes) }
            }
        })?;
        Ok(Client {
            screen: Screen::new(handle, widths),
        })
    }

    /// Takes the next bytes of a stream of answers, in whatever chunks they come, and returns how
    /// many answers are whole then. Of each it shows what the surface showed when it gave it. An
    /// answer that is late, comes twice, or leads on from what another surface showed changes
    /// nothing, counts too, and is no error.
    ///
    /// # Errors
    ///
    /// After an error [`Client::reset`] begins another stream. The answers before the error are
    /// taken. [`Error::Fault`]: the answer that has it has changed nothing. [`Error::Numbers`]: the
    /// client shows what it showed, and asks for the whole screen. [`Error::Memory`]: either that
    /// answer has changed nothing, or the client may show anything, and asks for the whole screen.
    pub fn feed(&mut self, bytes: &[u8]) -> Result<usize, Error> {
        let (len, mut taken) = (bytes.len(), 0);
        // Safety: the handle is live, the bytes are only read, and the others alone are written.
        self.call(|handle, fault| unsafe {
            ffi::tk_client_feed(handle, bytes.as_ptr(), len, &mut taken, fault)
        })?;
        Ok(taken)
    }

    /// Keeps the next bytes of a stream of answers, and takes none: [`Client::take_answer`] does.
    ///
    /// # Errors
    ///
    /// Those of [`Client::feed`]. After [`Error::Memory`] it takes no more bytes, until
    /// [`Client::reset`].
    pub fn keep(&mut self, bytes: &[u8]) -> Result<(), Error> {
        // Safety: the handle is live, the bytes are only read, and the fault alone is written.
        self.call(|handle, fault| unsafe {
            ffi::tk_client_keep(handle, bytes.as_ptr(), bytes.len(), fault)
        })
    }

    /// Takes the next answer of the bytes that it keeps, or returns `None` where they make no whole
    /// one. So each screen of a stream can be shown:
    ///
    /// ```
    /// # use tikeburo::{Client, Error, Surface, Taken};
    /// # let mut surface = Surface::new(8, 2)?;
    /// # let mut client = Client::new()?;
    /// # surface.add_change("one")?;
    /// # let bytes = surface.respond(&client.ask()?)?;
    /// client.keep(&bytes)?;
    /// while let Some(taken) = client.take_answer()? {
    ///     match taken {
    ///         Taken::Shown => println!("{}", client.screen().row(0).text()?),
    ///         Taken::Stale { at } => println!("stale at {at}"),
    ///     }
    /// }
    /// # Ok::<(), Error>(())
    /// ```
    ///
    /// # Errors
    ///
    /// Those of [`Client::feed`].
    pub fn take_answer(&mut self) -> Result<Option<Taken>, Error> {
        let mut taken = tk_taken::default();
        // Safety: the handle is live, and the others alone are written.
        self.call(|handle, fault| unsafe {
            ffi::tk_client_take_answer(handle, &mut taken, fault)
        })?;
        Ok(match taken.kind {
            0 => None,
            1 => Some(Taken::Shown),
            _ => Some(Taken::Stale { at: taken.at }),
        })
    }

    /// Makes a call that may find a fault in bytes.
    fn call(
        &mut self,
        call: impl FnOnce(*mut ffi::tk_handle, &mut tk_fault) -> i32,
    ) -> Result<(), Error> {
        let mut fault = tk_fault::default();
        match Error::check(call(self.screen.handle.get(), &mut fault)) {
            Err(Error::Unreadable) => Err(Error::Fault(Fault::from(fault))),
            outcome => outcome,
        }
    }

    /// What to ask for the next answer: what changed since the last one, or all where there is
    /// none.
    ///
    /// # Errors
    ///
    /// [`Error::Memory`].
    pub fn ask(&self) -> Result<Ask, Error> {
        let handle = self.screen.handle.get();
        // Safety: the handle is live, and the buffer has the room that is named.
        let bytes = handle::bytes(&mut [0; 20], |bytes, room, len| unsafe {
            ffi::tk_client_ask(handle, bytes, room, len)
        })?;
        Ok(Ask::from(bytes))
    }

    /// Begins a new stream: drops the bytes that make no whole answer yet. The client shows
    /// and asks for what it did before.
    pub fn reset(&mut self) {
        // Safety: the handle is live, and then the call doesn't fail.
        unsafe { ffi::tk_client_reset(self.screen.handle.get()) };
    }

    /// What it shows.
    #[must_use]
    pub fn screen(&self) -> &Screen {
        &self.screen
    }
}

/// What it shows.
impl Deref for Client {
    type Target = Screen;

    fn deref(&self) -> &Screen {
        &self.screen
    }
}
