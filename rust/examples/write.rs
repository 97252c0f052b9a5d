//! Writes a new safe from lines of title, user, group, password and expiry (seconds since
//! 1970-01-01), with tabs between; user, group and expiry may be empty.
//!
//! ```text
//! cargo run --release --example write -- OUT PASSPHRASE [ITER] < LINES
//! ```
//!
//! A passphrase on the command line is for an example alone: others can see it there.

use std::error::Error;
use std::fs::File;
use std::io::{stdin, Read};
use talcfeather::{header, record, wipe, write, Builder, Parts, AROUND, BODY_MAX};

/// The library makes no random values: the program that uses it does.
fn random(bytes: &mut [u8]) {
    let source = File::open("/dev/urandom").and_then(|mut file| file.read_exact(bytes));
    source.expect("/dev/urandom gives random bytes");
}

/// A body whose fill comes from there.
type Body<'b> = Builder<'b, fn(&mut [u8])>;

/// The optional fields may be left out; the mandatory ones may not be empty.
fn add_login(body: &mut Body<'_>, line: &str) -> Result<(), Box<dyn Error>> {
    let columns: Vec<&str> = line.split('\t').collect();
    let &[title, user, group, password, expiry] = &columns[..] else {
        return Err("a line needs title, user, group, password and expiry".into());
    };
    let mut uuid = [0; 16];
    random(&mut uuid);
    body.add(record::UUID, uuid)?;
    let texts = [
        (record::GROUP, group),
        (record::TITLE, title),
        (record::USER, user),
        (record::PASSWORD, password),
    ];
    for (kind, text) in texts {
        if !text.is_empty() {
            body.add(kind, text)?;
        }
    }
    if !expiry.is_empty() {
        body.add(record::PASSWORD_EXPIRY_TIME, expiry.parse::<u32>()?.to_le_bytes())?;
    }
    Ok(body.end()?)
}

fn main() -> Result<(), Box<dyn Error>> {
    let arguments: Vec<String> = std::env::args().skip(1).collect();
    let (out, passphrase, iter) = match &arguments[..] {
        [out, passphrase] => (out, passphrase, 262_144),
        [out, passphrase, iter] => (out, passphrase, iter.parse()?),
        _ => return Err("write OUT PASSPHRASE [ITER] < LINES".into()),
    };
    let mut buffer = vec![0; BODY_MAX];
    let mut body = Body::new(&mut buffer, random);
    body.add(header::VERSION, [0x00, 0x03])?;
    body.end()?;
    for line in stdin().lines() {
        add_login(&mut body, &line?)?;
    }
    let mut file = vec![0; body.place() + AROUND];
    write(passphrase.as_bytes(), &Parts::fresh(iter, random), body.body(), &mut file)?;
    wipe(&mut buffer);
    std::fs::write(out, file)?;
    Ok(())
}
