//! A line on standard error while something takes more than a second.

use std::io::{IsTerminal, Write};
use std::sync::mpsc::{channel, Receiver, RecvTimeoutError};
use std::thread;
use std::time::Duration;

const SECOND: Duration = Duration::from_secs(1);

/// Does the work; after each second tells how long it has taken so far. Where nobody watches,
/// it tells once.
pub fn during<T>(what: &str, work: impl FnOnce() -> T) -> T {
    during_about(what, None, work)
}

/// The same, and tells the share done, of work that takes about that long.
pub fn during_about<T>(what: &str, about: Option<Duration>, work: impl FnOnce() -> T) -> T {
    thread::scope(|scope| {
        let (done, waiting) = channel::<()>();
        // Without a thread to spare there is no line, and the work is done all the same.
        let _ = thread::Builder::new().spawn_scoped(scope, move || tell(what, about, waiting));
        let result = work();
        drop(done);
        result
    })
}

fn tell(what: &str, about: Option<Duration>, waiting: Receiver<()>) {
    let mut err = std::io::stderr();
    let watched = err.is_terminal();
    let mut seconds = 0;
    while waiting.recv_timeout(SECOND) == Err(RecvTimeoutError::Timeout) {
        seconds += 1;
        if watched {
            let _ = write!(err, "\r\x1b[Ktalc: {what}: {seconds} s{}", share(seconds, about));
        } else if seconds == 1 {
            let _ = writeln!(err, "talc: {what}: takes more than a second");
        }
        let _ = err.flush();
    }
    if watched && seconds > 0 {
        let _ = write!(err, "\r\x1b[K");
    }
}

/// An estimate: the library does all the work in one call, and nobody sees how far it is. So it is
/// never all before the end.
fn share(seconds: u64, about: Option<Duration>) -> String {
    let Some(about) = about.filter(|about| !about.is_zero()) else { return String::new() };
    let percent = (seconds * 100_000) as u128 / about.as_millis().max(1);
    format!(", about {} %", percent.min(99))
}

#[test]
fn shares() {
    let about = |seconds| Some(Duration::from_secs(seconds));
    assert_eq!(share(1, None), "");
    assert_eq!(share(1, about(4)), ", about 25 %");
    assert_eq!(share(4, about(4)), ", about 99 %");
    assert_eq!(share(400, about(4)), ", about 99 %");
    assert_eq!(share(1, about(0)), "");
}
