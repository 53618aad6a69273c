//! The window that the program's terminal is shown in, where there is one.

use nix::libc::{self, winsize, STDIN_FILENO, STDOUT_FILENO};
use nix::sys::termios::{cfmakeraw, tcgetattr, tcsetattr, SetArg, Termios};
use std::io::{self, stdin, stdout, IsTerminal, Write};
use std::mem;
use std::os::fd::RawFd;

/// The most columns, and the most rows, that viewers take.
const MOST: u16 = 1000;
const USUAL: (u16, u16) = (80, 24);

/// Resets what a program may have set: the modes of the mouse, focus, pastes, keys, insertion and
/// wraps, then the pen, the cursor's look and the sets of characters. The cursor stays.
const PUT_BACK: &[u8] = b"\x1b[?1000l\x1b[?1002l\x1b[?1003l\x1b[?1005l\x1b[?1006l\x1b[?1015l\
    \x1b[?1004l\x1b[?2004l\x1b[?2026l\x1b[?1l\x1b>\x1b[4l\x1b[?7h\x1b[?5l\
    \x1b[m\x1b[?25h\x1b[0 q\x1b(B\x0f";
/// Resets the margins, and leaves the cursor where it is.
const WHOLE: &[u8] = b"\x1b7\x1b[?6l\x1b[r\x1b8";
const MAIN_SCREEN: &[u8] = b"\x1b[?1049l";

/// The width in columns and the height in rows: those of the window, or usual ones.
pub fn size() -> (u16, u16) {
    let sizes = [STDOUT_FILENO, STDIN_FILENO]
        .into_iter()
        .filter_map(size_of);
    let mut sizes =
        sizes.filter(|(width, height)| [width, height].iter().all(|n| (1..=MOST).contains(*n)));
    sizes.next().unwrap_or(USUAL)
}

fn size_of(file: RawFd) -> Option<(u16, u16)> {
    let mut size = winsize {
        ws_row: 0,
        ws_col: 0,
        ws_xpixel: 0,
        ws_ypixel: 0,
    };
    // Safety: the call writes the size alone.
    let status = unsafe { libc::ioctl(file, libc::TIOCGWINSZ, &mut size) };
    (status == 0).then_some((size.ws_col, size.ws_row))
}

/// The window while a program has it: keys come as they are typed. Dropped, it is put back.
pub struct Window {
    before: Option<Termios>, // while it isn't put back
    pub shows: bool,         // whether the output is a window
}

impl Window {
    /// Takes the window, if there is one.
    pub fn take() -> Window {
        let shows = stdout().is_terminal();
        let before = tcgetattr(STDIN_FILENO)
            .ok()
            .filter(|_| stdin().is_terminal());
        if let Some(before) = &before {
            let mut raw = before.clone();
            cfmakeraw(&mut raw);
            let _ = tcsetattr(STDIN_FILENO, SetArg::TCSANOW, &raw); // it may be gone
        }
        Window { before, shows }
    }

    /// Puts the window back as it was, from the alternate screen too if that is shown. A second call
    /// does nothing.
    pub fn put_back(&mut self, is_alternate: bool) {
        if let Some(before) = self.before.take() {
            let _ = tcsetattr(STDIN_FILENO, SetArg::TCSANOW, &before); // it may be gone
        }
        if mem::take(&mut self.shows) {
            let _ = put_back(is_alternate);
        }
    }
}

fn put_back(is_alternate: bool) -> io::Result<()> {
    let screen = if is_alternate { MAIN_SCREEN } else { b"" };
    let mut window = stdout().lock();
    window.write_all(&[WHOLE, screen, PUT_BACK].concat())?;
    window.flush()
}

/// Where nobody knows any more which screen is shown.
impl Drop for Window {
    fn drop(&mut self) {
        self.put_back(true);
    }
}
