//! A terminal of the test's own, with a program at it.

use super::*;
use std::ffi::{c_char, CStr};
use std::io::Read;
use std::os::fd::{AsRawFd, FromRawFd};
use std::os::unix::process::ExitStatusExt;
use std::process::{Child, Command};

extern "C" {
    fn posix_openpt(flags: i32) -> i32;
    fn grantpt(fd: i32) -> i32;
    fn unlockpt(fd: i32) -> i32;
    fn ptsname_r(fd: i32, name: *mut c_char, length: usize) -> i32;
    fn ioctl(fd: i32, request: u64, argument: i32) -> i32;
    fn tcgetattr(fd: i32, termios: *mut [u32; 64]) -> i32;
    fn alarm(seconds: u32) -> u32;
    fn kill(process: i32, signal: i32) -> i32;
}

const READ_WRITE_NO_CONTROL: i32 = 0o2 | 0o400;
const SET_CONTROLLING: u64 = 0x540e;

fn pair() -> (fs::File, PathBuf) {
    let mut name = [0; 100];
    unsafe {
        let fd = posix_openpt(READ_WRITE_NO_CONTROL);
        assert!(fd >= 0 && grantpt(fd) == 0 && unlockpt(fd) == 0);
        assert_eq!(ptsname_r(fd, name.as_mut_ptr(), name.len()), 0);
        let path = CStr::from_ptr(name.as_ptr()).to_str().unwrap().into();
        (fs::File::from_raw_fd(fd), path)
    }
}

pub struct Terminal {
    master: fs::File,
    child: Child,
    /// How it was set before the program began: the C library's `struct termios`, and more room.
    before: [u32; 64],
    shown: Vec<u8>,
}

/// The status, the signal that it died by, and all that the terminal showed.
pub type End = (Option<i32>, Option<i32>, String);

impl Terminal {
    /// Starts talc at a new terminal.
    pub fn talc(arguments: &[&str]) -> Terminal {
        let mut command = built(env!("CARGO_BIN_EXE_talc"));
        command.args(arguments);
        Terminal::start(command)
    }

    /// Starts a shell there, for which `$TALC` is talc.
    pub fn shell(shell: &[&str], script: &str) -> Terminal {
        let talc = built(env!("CARGO_BIN_EXE_talc"));
        let words = [talc.get_program()].into_iter().chain(talc.get_args());
        let words: Vec<&str> = words.map(|word| word.to_str().unwrap()).collect();
        let mut command = Command::new(shell[0]);
        command.args(&shell[1..]).args(["-c", script]).env("TALC", words.join(" "));
        Terminal::start(command)
    }

    pub fn start(mut command: Command) -> Terminal {
        let (master, slave) = pair();
        let slave = fs::OpenOptions::new().read(true).write(true).open(slave).unwrap();
        command.stdin(slave.try_clone().unwrap());
        command.stdout(slave.try_clone().unwrap()).stderr(slave.try_clone().unwrap());
        let fd = slave.as_raw_fd();
        unsafe {
            command.pre_exec(move || {
                setsid();
                ioctl(fd, SET_CONTROLLING, 0);
                // Who started the test may ignore these, as a shell does behind `&`.
                for number in [1, 2, 3, 15, 20] {
                    signal(number, 0);
                }
                // A prompt that never ends is killed, and so fails.
                alarm(60);
                Ok(())
            })
        };
        let before = settings(&master);
        let child = command.spawn().unwrap();
        Terminal { master, child, before, shown: Vec::new() }
    }

    /// Waits until the last that was shown is this.
    pub fn shows(&mut self, text: &str) {
        let mut byte = [0];
        while self.master.read(&mut byte).unwrap_or(0) == 1 {
            self.shown.push(byte[0]);
            if self.shown.ends_with(text.as_bytes()) {
                return;
            }
        }
    }

    pub fn types(&mut self, keys: &[u8]) {
        self.master.write_all(keys).unwrap();
    }

    pub fn signals(&self, number: i32) {
        assert_eq!(unsafe { kill(self.child.id() as i32, number) }, 0);
    }

    pub fn is_as_before(&self) -> bool {
        settings(&self.master) == self.before
    }

    /// At the end of the last process on it, a terminal gives an error.
    pub fn ends(mut self) -> End {
        let mut byte = [0];
        while self.master.read(&mut byte).unwrap_or(0) == 1 {
            self.shown.push(byte[0]);
        }
        let status = self.child.wait().unwrap();
        assert!(self.is_as_before(), "the terminal is as it was");
        (status.code(), status.signal(), String::from_utf8(self.shown).unwrap())
    }
}

fn settings(terminal: &fs::File) -> [u32; 64] {
    let mut termios = [0; 64];
    assert_eq!(unsafe { tcgetattr(terminal.as_raw_fd(), &mut termios) }, 0);
    termios
}
