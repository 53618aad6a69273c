//! Signals, which become news.

use crate::inbox::Inbox;
use nix::sys::signal::Signal;
use std::sync::Arc;
use std::{fs, io};
use tokio::signal::unix::{signal, SignalKind};

const PASSED_ON: [Signal; 4] = [
    Signal::SIGHUP,
    Signal::SIGINT,
    Signal::SIGQUIT,
    Signal::SIGTERM,
];

/// Whether this process was started with a signal ignored, as `nohup` does.
fn is_ignored(signal: Signal) -> bool {
    let status = fs::read_to_string("/proc/self/status").unwrap_or_default();
    let line = status.lines().find_map(|line| line.strip_prefix("SigIgn:"));
    let ignored = line.and_then(|mask| u64::from_str_radix(mask.trim(), 16).ok());
    ignored.unwrap_or(0) >> (signal as u32 - 1) & 1 == 1
}

/// From now on signals are news, in the context of a runtime. What this process was started with
/// ignored stays so.
pub fn note(inbox: &Arc<Inbox>) -> io::Result<()> {
    let resized = Arc::clone(inbox);
    let resize = move || resized.note(|news| news.is_resized = true);
    on(SignalKind::window_change(), resize)?;
    for passed in PASSED_ON.into_iter().filter(|signal| !is_ignored(*signal)) {
        let inbox = Arc::clone(inbox);
        let note = move || inbox.note(|news| news.signals.push(passed));
        on(SignalKind::from_raw(passed as i32), note)?;
    }
    Ok(())
}

fn on(kind: SignalKind, act: impl Fn() + Send + 'static) -> io::Result<()> {
    let mut signals = signal(kind)?;
    tokio::spawn(async move {
        while signals.recv().await.is_some() {
            act();
        }
    });
    Ok(())
}
