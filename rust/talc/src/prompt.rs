//! A line asked for at the terminal, of which nothing typed is shown.

use crate::secret::Secret;
use crate::trouble::Trouble;
use std::fs::{File, OpenOptions};
use std::io::{self, PipeReader, PipeWriter, Read, Write};
use std::os::fd::AsRawFd;
use std::path::Path;
use std::sync::atomic::{AtomicI32, Ordering::SeqCst};

/// The longest line that a terminal gives.
const LINE: usize = 4096;

/// The line that is typed, with its newline. Enter alone ends one with a newline; what ends it
/// otherwise gives up.
pub fn ask(prompt: &str, otherwise: &str) -> Result<Secret, Trouble> {
    let terminal = OpenOptions::new().read(true).write(true).open("/dev/tty");
    let quiet = terminal.and_then(|terminal| Quiet::new(terminal, prompt));
    let no_terminal = |_| Trouble::usage(format!("no terminal to ask: give {otherwise}"));
    let quiet = quiet.map_err(no_terminal)?;
    let mut line = Secret(vec![0; LINE]);
    let length = quiet.line(&mut line.0);
    line.0.truncate(length.map_err(|error| Trouble::input(Path::new("/dev/tty"), error))?);
    // Suspend ends no line, and is never meant as typed.
    let suspend = quiet.before.keys[SUSPEND];
    match line.0.last() {
        Some(b'\n') if !line.0.contains(&suspend) || suspend == 0 => Ok(line),
        _ => Err(Trouble::GivenUp),
    }
}

/// The C library's `struct termios` on Linux, with room to spare.
#[repr(C)]
#[derive(Clone, Copy, Default)]
struct Termios {
    input: u32,
    output: u32,
    control: u32,
    local: u32,
    line: u8,
    keys: [u8; 19],
    rest: [u32; 32],
}

/// What `poll` waits for.
#[repr(C)]
struct Polled {
    fd: i32,
    events: i16,
    happened: i16,
}

extern "C" {
    fn tcgetattr(fd: i32, termios: *mut Termios) -> i32;
    fn tcsetattr(fd: i32, actions: i32, termios: *const Termios) -> i32;
    fn poll(polled: *mut Polled, count: u64, timeout: i32) -> i32;
    fn signal(number: i32, handler: usize) -> usize;
    fn kill(process: i32, number: i32) -> i32;
    fn getpid() -> i32;
    fn write(fd: i32, bytes: *const u8, length: usize) -> isize;
}

const ISIG: u32 = 0o1;
const ICANON: u32 = 0o2;
const ECHO: u32 = 0o10;
const ECHONL: u32 = 0o100;
const IEXTEN: u32 = 0o100000;
const TCSAFLUSH: i32 = 2;

/// Places in `keys`. A key that the terminal does not have is 0 there.
const INTERRUPT: usize = 0;
const QUIT: usize = 1;
const SUSPEND: usize = 10;
const END_OF_LINE: usize = 11;
const END_OF_LINE_2: usize = 16;

/// Hangup, interrupt, quit and termination end the process; the terminal's stop suspends it.
const CAUGHT: [i32; 6] = [1, 2, 3, 15, STOP, CONTINUE];
const STOP: i32 = 20;
const CONTINUE: i32 = 18;

const DEFAULT: usize = 0;
const IGNORE: usize = 1;
const READABLE: i16 = 1;
const FOREVER: i32 = -1;

/// A terminal that shows nothing typed. Its keys send no signals: interrupt and quit end the line
/// instead. A signal that comes otherwise, and ends or suspends the process, leaves the terminal as it
/// was before.
struct Quiet<'p> {
    terminal: File,
    prompt: &'p str,
    before: Termios,
    quiet: Termios,
    /// What was done at each signal before.
    handlers: [usize; CAUGHT.len()],
    /// Where signals are noted: so one that comes at any moment ends the waiting.
    noted: PipeReader,
    _note: PipeWriter,
}

/// The end of the pipe to which signals are noted.
static NOTE: AtomicI32 = AtomicI32::new(-1);

/// All that is done within a handler: a handler may call next to nothing.
extern "C" fn note(number: i32) {
    let number = number as u8;
    unsafe { write(NOTE.load(SeqCst), &number, 1) };
}

/// Has the signal noted; what is ignored stays ignored, as under nohup.
fn catch(number: i32) -> usize {
    unsafe {
        let before = signal(number, note as extern "C" fn(i32) as usize);
        if before == IGNORE {
            signal(number, IGNORE);
        }
        before
    }
}

impl<'p> Quiet<'p> {
    fn new(terminal: File, prompt: &'p str) -> io::Result<Quiet<'p>> {
        let mut before = Termios::default();
        if unsafe { tcgetattr(terminal.as_raw_fd(), &mut before) } != 0 {
            return Err(io::Error::last_os_error());
        }
        let mut quiet = before;
        quiet.local = before.local & !(ECHO | ECHONL | ISIG) | ICANON | IEXTEN;
        quiet.keys[END_OF_LINE] = before.keys[INTERRUPT];
        quiet.keys[END_OF_LINE_2] = before.keys[QUIT];
        let (noted, note) = io::pipe()?;
        NOTE.store(note.as_raw_fd(), SeqCst);
        // Caught first: there is no moment at which a signal leaves the terminal quiet.
        let handlers = CAUGHT.map(catch);
        let quiet = Quiet { terminal, prompt, before, quiet, handlers, noted, _note: note };
        quiet.set(&quiet.quiet)?;
        Ok(quiet)
    }

    fn set(&self, termios: &Termios) -> io::Result<()> {
        match unsafe { tcsetattr(self.terminal.as_raw_fd(), TCSAFLUSH, termios) } {
            0 => Ok(()),
            _ => Err(io::Error::last_os_error()),
        }
    }

    /// Asks, and reads one line: a terminal gives one at a time.
    fn line(&self, line: &mut [u8]) -> io::Result<usize> {
        let mut terminal = &self.terminal;
        terminal.write_all(self.prompt.as_bytes())?;
        while let Some(number) = self.wait()? {
            self.signalled(number)?;
        }
        let length = terminal.read(line)?;
        let _ = terminal.write_all(b"\n");
        Ok(length)
    }

    /// Until there is a line, or a signal, whose number it tells.
    fn wait(&self) -> io::Result<Option<i32>> {
        let waits = |fd: i32| Polled { fd, events: READABLE, happened: 0 };
        let mut polled = [waits(self.noted.as_raw_fd()), waits(self.terminal.as_raw_fd())];
        while unsafe { poll(polled.as_mut_ptr(), 2, FOREVER) } < 0 {
            let error = io::Error::last_os_error();
            if error.kind() != io::ErrorKind::Interrupted {
                return Err(error);
            }
        }
        if polled[0].happened == 0 {
            return Ok(None);
        }
        let mut number = [0];
        (&self.noted).read_exact(&mut number)?;
        Ok(Some(number[0].into()))
    }

    /// Does what the signal does by itself, with the terminal as it was. After a suspension it is
    /// quiet again, and asks again.
    fn signalled(&self, number: i32) -> io::Result<()> {
        let mut terminal = &self.terminal;
        if number != CONTINUE {
            self.set(&self.before)?;
            if number != STOP {
                terminal.write_all(b"\n")?;
            }
            unsafe {
                signal(number, DEFAULT);
                kill(getpid(), number);
            }
            catch(number);
        }
        self.set(&self.quiet)?;
        if number == CONTINUE {
            terminal.write_all(self.prompt.as_bytes())?;
        }
        Ok(())
    }
}

impl Drop for Quiet<'_> {
    fn drop(&mut self) {
        let _ = self.set(&self.before);
        for (number, handler) in CAUGHT.into_iter().zip(self.handlers) {
            unsafe { signal(number, handler) };
        }
        // What was noted after the line is done now.
        let waits = Polled { fd: self.noted.as_raw_fd(), events: READABLE, happened: 0 };
        let mut number = [0];
        if unsafe { poll(&mut { waits }, 1, 0) } == 1 && self.noted.read(&mut number).is_ok() {
            unsafe { kill(getpid(), number[0].into()) };
        }
    }
}
