//! The program, and the terminal that it runs in.

use nix::errno::Errno;
use nix::fcntl::{fcntl, FcntlArg, FdFlag};
use nix::libc::{self, winsize};
use nix::poll::{poll, PollFd, PollFlags};
use nix::pty::openpty;
use nix::sys::resource::{getrlimit, setrlimit, Resource};
use nix::sys::signal::{killpg, Signal};
use nix::sys::wait::{waitid, Id, WaitPidFlag};
use nix::unistd::{setsid, tcgetpgrp, Pid};
use std::ffi::OsString;
use std::fs::File;
use std::io::{self, Write};
use std::os::fd::{AsRawFd, FromRawFd};
use std::os::unix::process::{CommandExt, ExitStatusExt};
use std::process::{Child, Command, Stdio};

/// How many files a process may have open.
#[derive(Clone, Copy)]
pub struct Files {
    usual: u64, // as the program gets it
    most: u64,
}

/// Lets this process have as many open files as it may.
pub fn raise_files() -> nix::Result<Files> {
    let (usual, most) = getrlimit(Resource::RLIMIT_NOFILE)?;
    setrlimit(Resource::RLIMIT_NOFILE, most, most)?;
    Ok(Files { usual, most })
}

impl Files {
    pub fn most(self) -> usize {
        usize::try_from(self.most).unwrap_or(usize::MAX)
    }
}

/// The size of a terminal of this width and height.
fn size_of((ws_col, ws_row): (u16, u16)) -> winsize {
    winsize {
        ws_row,
        ws_col,
        ws_xpixel: 0,
        ws_ypixel: 0,
    }
}

/// A program that runs in a terminal of its own.
pub struct Program {
    child: Child,
    pty: File,
}

impl Program {
    /// Runs a program, with its words after it, in a terminal of this width and height.
    ///
    /// # Errors
    ///
    /// Those of the system, as where there is no such program. Nothing runs then.
    pub fn run(words: &[OsString], size: (u16, u16), files: Files) -> io::Result<Program> {
        let (name, words) = words.split_first().ok_or(Errno::ENOENT)?;
        let made = openpty(Some(&size_of(size)), None)?;
        // Safety: nobody else has the two files, which were opened just now.
        let (pty, its) = unsafe {
            (
                File::from_raw_fd(made.master),
                File::from_raw_fd(made.slave),
            )
        };
        for file in [&pty, &its] {
            fcntl(file.as_raw_fd(), FcntlArg::F_SETFD(FdFlag::FD_CLOEXEC))?;
        }
        let mut command = Command::new(name);
        command
            .args(words)
            .stdin(its.try_clone()?)
            .stdout(its.try_clone()?)
            .stderr(Stdio::from(its));
        // Safety: the call makes system calls alone, which may stand between fork and exec.
        unsafe { command.pre_exec(move || enter_terminal(files)) };
        let child = command.spawn()?;
        Ok(Program { child, pty })
    }

    /// The other end of the terminal: it reads what the program writes, and takes keys.
    pub fn pty(&self) -> io::Result<File> {
        self.pty.try_clone()
    }

    pub fn id(&self) -> u32 {
        self.child.id()
    }

    /// Gives the terminal another size, and the program a signal.
    pub fn resize(&self, size: (u16, u16)) -> io::Result<()> {
        // Safety: the call only reads the size.
        let status = unsafe { libc::ioctl(self.pty.as_raw_fd(), libc::TIOCSWINSZ, &size_of(size)) };
        Ok(Errno::result(status).map(drop)?)
    }

    /// Types these bytes, or drops them where the terminal has no room, as the program reads none.
    pub fn send(&mut self, bytes: &[u8]) -> io::Result<()> {
        let mut room = [PollFd::new(self.pty.as_raw_fd(), PollFlags::POLLOUT)];
        let has_room = poll(&mut room, 0)? > 0;
        if has_room && !bytes.is_empty() {
            self.pty.write_all(bytes)?;
        }
        Ok(())
    }

    /// Sends a signal to the program's group of processes, and to the one in the foreground of its
    /// terminal. Groups that have ended are passed over.
    pub fn signal(&self, signal: Signal) {
        let own = Pid::from_raw(self.child.id() as i32);
        let _ = killpg(own, signal);
        match tcgetpgrp(self.pty.as_raw_fd()) {
            Ok(front) if front != own && front.as_raw() > 1 => drop(killpg(front, signal)),
            _ => {}
        }
    }

    /// The exit status of a program that has ended: 128 and the signal's number where one ended it.
    pub fn status(&mut self) -> Option<u8> {
        let status = self.child.try_wait().ok()??;
        let code = status.code().or_else(|| Some(128 + status.signal()?));
        code.map(|code| code as u8) // a status has 8 bits
    }
}

/// Makes a new process the first one of its terminal, which its input is.
fn enter_terminal(files: Files) -> io::Result<()> {
    setsid()?;
    // Safety: the call takes a number.
    Errno::result(unsafe { libc::ioctl(libc::STDIN_FILENO, libc::TIOCSCTTY, 0) })?;
    Ok(setrlimit(Resource::RLIMIT_NOFILE, files.usual, files.most)?)
}

/// Waits until a program has ended. Its number stays its own until [`Program::status`] is called.
pub fn wait_for(id: u32) {
    let flags = WaitPidFlag::WEXITED | WaitPidFlag::WNOWAIT;
    while waitid(Id::Pid(Pid::from_raw(id as i32)), flags) == Err(Errno::EINTR) {}
}
