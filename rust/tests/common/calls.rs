//! Each call with everything that it determines, from the library and from the peer.

use super::guarded::Guarded;
use peer::fields::{Cursor, Value};
use peer::random::Random;
use peer::safe::Parts;
use peer::table::Refused;
use talcfeather::raw;

/// The number returned, the answer's bytes, and the lent memory afterwards.
#[derive(PartialEq, Eq)]
pub struct Outcome {
    pub number: u32,
    pub answer: Vec<u8>,
    pub memory: Vec<u8>,
}

impl std::fmt::Debug for Outcome {
    fn fmt(&self, f: &mut std::fmt::Formatter<'_>) -> std::fmt::Result {
        let sum = peer::saved::hex(&peer::sha256::hash(&self.memory)[..4]);
        let answer = peer::saved::hex(&self.answer);
        write!(f, "{} {answer} {} bytes, hash {sum}", self.number, self.memory.len())
    }
}

fn bytes_of(numbers: &[u64]) -> Vec<u8> {
    numbers.iter().flat_map(|n| n.to_le_bytes()).collect()
}

fn padded(mut bytes: Vec<u8>, length: usize) -> Vec<u8> {
    bytes.resize(length, 0);
    bytes
}

pub struct Read<'a> {
    pub file: &'a [u8],
    pub passphrase: &'a [u8],
    pub ceiling: u32,
    pub room: usize,
}

impl Read<'_> {
    pub fn ours(&self, random: &mut Random) -> Outcome {
        let file = Guarded::new(random, self.file);
        let passphrase = Guarded::new(random, self.passphrase);
        let mut workspace = Guarded::junk(random, self.room);
        let mut answer = Guarded::junk(random, 96);
        let number = unsafe {
            raw::talc_read(
                file.pointer(),
                file.len(),
                passphrase.pointer(),
                passphrase.len(),
                self.ceiling,
                workspace.pointer_mut(),
                workspace.len(),
                answer.pointer_mut().cast(),
            )
        };
        file.unchanged();
        passphrase.unchanged();
        Outcome { number, answer: answer.content(), memory: workspace.content() }
    }

    pub fn theirs(&self) -> Outcome {
        let (opened, work) = peer::safe::read(self.file, self.passphrase, self.ceiling, self.room);
        let work = [work.compressions, work.blocks];
        match opened {
            Err(number) => {
                let answer = [vec![0; 80], bytes_of(&work)].concat();
                Outcome { number, answer, memory: vec![0; self.room] }
            }
            Ok(opened) => {
                let counts = [opened.counts.header_fields, opened.counts.records];
                let counts = bytes_of(&counts);
                let answer = [&opened.k[..], &opened.l, &counts, &bytes_of(&work)].concat();
                Outcome { number: 0, answer, memory: padded(opened.body, self.room) }
            }
        }
    }
}

pub struct Write<'a> {
    pub parts: &'a Parts,
    pub body: &'a [u8],
    pub room: usize,
}

impl Write<'_> {
    pub fn ours(&self, random: &mut Random) -> Outcome {
        let passphrase = Guarded::new(random, &self.parts.passphrase);
        let values = [&self.parts.salt[..], &self.parts.k, &self.parts.l, &self.parts.iv];
        let [salt, k, l, iv] = values.map(|value| Guarded::new(random, value));
        let body = Guarded::new(random, self.body);
        let mut output = Guarded::junk(random, self.room);
        let number = unsafe {
            raw::talc_write(
                passphrase.pointer(),
                passphrase.len(),
                salt.pointer().cast(),
                self.parts.iter,
                k.pointer().cast(),
                l.pointer().cast(),
                iv.pointer().cast(),
                body.pointer(),
                body.len(),
                output.pointer_mut(),
                output.len(),
            )
        };
        for lent in [passphrase, salt, k, l, iv, body] {
            lent.unchanged();
        }
        Outcome { number, answer: Vec::new(), memory: output.content() }
    }

    pub fn theirs(&self) -> Outcome {
        let written = peer::safe::write(self.parts, self.body, self.room);
        let number = written.as_ref().err().copied().unwrap_or(0);
        let memory = padded(written.unwrap_or_default(), self.room);
        Outcome { number, answer: Vec::new(), memory }
    }
}

pub struct Walk<'a> {
    pub body: &'a [u8],
    pub at: Cursor,
}

fn value_numbers(value: Value) -> [u64; 3] {
    match value {
        Value::Empty => [0, 0, 0],
        Value::End => [1, 0, 0],
        Value::Uuid(first, second) => [2, first, second],
        Value::Time(time) => [3, time.into(), 0],
        Value::Number(number) => [4, number.into(), 0],
        Value::Flag(flag) => [5, flag.into(), 0],
        Value::Text => [6, 0, 0],
        Value::BadText(at) => [7, at as u64, 0],
        Value::Misshapen => [8, 0, 0],
        Value::Opaque => [9, 0, 0],
    }
}

impl Walk<'_> {
    pub fn ours(&self, random: &mut Random) -> Outcome {
        let body = Guarded::new(random, self.body);
        let mut answer = Guarded::junk(random, 72);
        let number = unsafe {
            raw::talc_walk(
                body.pointer(),
                body.len(),
                self.at.place,
                self.at.in_record,
                answer.pointer_mut().cast(),
            )
        };
        body.unchanged();
        let answer = answer.content();
        let at = |offset| u64::from_le_bytes(answer[offset..offset + 8].try_into().unwrap());
        assert!(at(48) != 7 || at(56) < at(40), "a text goes wrong within its data");
        Outcome { number, answer, memory: Vec::new() }
    }

    pub fn theirs(&self) -> Outcome {
        let walked = peer::fields::walk(self.body, self.at);
        let number = walked.err().unwrap_or(0);
        let mut answer = vec![0; 72];
        if let Ok(Some((field, next))) = walked {
            let [kind, first, second] = value_numbers(field.value);
            let (place, length) = (field.place as u64, field.length as u64);
            let [after, in_record] = [next.place as u64, next.in_record.into()];
            let type_number = field.kind.into();
            answer =
                bytes_of(&[1, after, in_record, type_number, place, length, kind, first, second]);
        }
        Outcome { number, answer, memory: Vec::new() }
    }
}

pub struct Append<'a> {
    pub buffer: &'a [u8],
    pub place: usize,
    pub kind: u8,
    pub data: &'a [u8],
    pub fill: &'a [u8],
}

impl Append<'_> {
    pub fn ours(&self, random: &mut Random) -> Outcome {
        let mut buffer = Guarded::new(random, self.buffer);
        let data = Guarded::new(random, self.data);
        let fill = Guarded::new(random, self.fill);
        let mut next = Guarded::junk(random, 8);
        let number = unsafe {
            raw::talc_append(
                buffer.pointer_mut(),
                buffer.len(),
                self.place,
                self.kind,
                data.pointer(),
                data.len(),
                fill.pointer(),
                fill.len(),
                next.pointer_mut().cast(),
            )
        };
        data.unchanged();
        fill.unchanged();
        Outcome { number, answer: next.content(), memory: buffer.content() }
    }

    pub fn theirs(&self) -> Outcome {
        let mut memory = self.buffer.to_vec();
        let next = peer::fields::append(&mut memory, self.place, self.kind, self.data, self.fill);
        let number = next.err().unwrap_or(0);
        Outcome { number, answer: bytes_of(&[next.unwrap_or(0) as u64]), memory }
    }
}

pub fn judge_ours(body: &[u8], random: &mut Random) -> Outcome {
    let body = Guarded::new(random, body);
    let mut answer = Guarded::junk(random, 16);
    let number =
        unsafe { raw::talc_judge(body.pointer(), body.len(), answer.pointer_mut().cast()) };
    body.unchanged();
    Outcome { number, answer: answer.content(), memory: Vec::new() }
}

pub fn judge_theirs(body: &[u8]) -> Outcome {
    let counts = peer::body::judge(body);
    let number = counts.err().unwrap_or(0);
    let numbers = counts.map_or([0, 0], |counts| [counts.header_fields, counts.records]);
    Outcome { number, answer: bytes_of(&numbers), memory: Vec::new() }
}

pub fn find_ours(body: &[u8], uuid: &[u8; 16], random: &mut Random) -> Outcome {
    let body = Guarded::new(random, body);
    let uuid = Guarded::new(random, uuid);
    let mut answer = Guarded::junk(random, 32);
    let number = unsafe {
        let (uuid, answer) = (uuid.pointer().cast(), answer.pointer_mut().cast());
        raw::talc_find(body.pointer(), body.len(), uuid, answer)
    };
    body.unchanged();
    uuid.unchanged();
    Outcome { number, answer: answer.content(), memory: Vec::new() }
}

pub fn find_theirs(body: &[u8], uuid: &[u8; 16]) -> Outcome {
    let search = peer::body::find(body, uuid);
    let number = search.err().unwrap_or(0);
    let numbers = search.map_or([0; 4], |search| match search.found {
        Some(found) => [1, found.record, found.place as u64, search.visited],
        None => [0, 0, 0, search.visited],
    });
    Outcome { number, answer: bytes_of(&numbers), memory: Vec::new() }
}

pub fn replay_ours(state: &[u8], trace: &[u8], random: &mut Random) -> Outcome {
    let mut state = Guarded::new(random, state);
    let trace = Guarded::new(random, trace);
    let mut answer = Guarded::junk(random, 8);
    let number = unsafe {
        let (length, start) = (state.len(), state.pointer_mut());
        let answer = answer.pointer_mut().cast();
        raw::talc_replay(start, length, trace.pointer(), trace.len(), answer)
    };
    trace.unchanged();
    Outcome { number, answer: answer.content(), memory: state.content() }
}

pub fn standing_ours(state: &[u8], uuid: &[u8; 16], random: &mut Random) -> Outcome {
    let state = Guarded::new(random, state);
    let uuid = Guarded::new(random, uuid);
    let mut answer = Guarded::junk(random, 40);
    let number = unsafe {
        let (uuid, answer) = (uuid.pointer().cast(), answer.pointer_mut().cast());
        raw::talc_standing(state.pointer(), state.len(), uuid, answer)
    };
    state.unchanged();
    uuid.unchanged();
    Outcome { number, answer: answer.content(), memory: Vec::new() }
}

pub fn standing_theirs(accepted: &peer::replay::Accepted, uuid: &[u8; 16]) -> Outcome {
    let standing = accepted.standing(uuid);
    let [cancel, reissue] = [standing.cancel, standing.reissue]
        .map(|time| [time.is_some().into(), time.unwrap_or(0).into()]);
    let numbers = [&[standing.cancelled.into()][..], &cancel, &reissue].concat();
    Outcome { number: 0, answer: bytes_of(&numbers), memory: Vec::new() }
}

/// An export into an output that holds these bytes.
pub struct Export<'a> {
    pub body: &'a [u8],
    pub now: u32,
    pub output: &'a [u8],
}

impl Export<'_> {
    pub fn ours(&self, random: &mut Random) -> Outcome {
        let body = Guarded::new(random, self.body);
        let mut output = Guarded::new(random, self.output);
        let mut answer = Guarded::junk(random, 24);
        let number = unsafe {
            raw::talc_export(
                body.pointer(),
                body.len(),
                self.now,
                output.pointer_mut(),
                output.len(),
                answer.pointer_mut().cast(),
            )
        };
        body.unchanged();
        Outcome { number, answer: answer.content(), memory: output.content() }
    }

    pub fn theirs(&self) -> Outcome {
        let mut memory = self.output.to_vec();
        let (number, numbers) = match peer::table::export(self.body, self.now, memory.len()) {
            Err(Refused::Body) => (9, [0; 3]),
            Err(Refused::Login(record, kind)) => (18, [0, record, kind.into()]),
            Err(Refused::Room) => (3, [0; 3]),
            Ok(table) => {
                memory[..table.len()].copy_from_slice(&table);
                (0, [table.len() as u64 / 256, 0, 0])
            }
        };
        Outcome { number, answer: bytes_of(&numbers), memory }
    }
}

pub fn import_ours(table: &[u8], random: &mut Random) -> Outcome {
    let table = Guarded::new(random, table);
    let mut answer = Guarded::junk(random, 16);
    let number =
        unsafe { raw::talc_import(table.pointer(), table.len(), answer.pointer_mut().cast()) };
    table.unchanged();
    Outcome { number, answer: answer.content(), memory: Vec::new() }
}

pub fn import_theirs(table: &[u8]) -> Outcome {
    let (number, numbers) = match peer::table::import(table) {
        Ok(rows) => (0, [rows.len() as u64, 0]),
        Err(at_fault) => (18, [0, at_fault]),
    };
    Outcome { number, answer: bytes_of(&numbers), memory: Vec::new() }
}

pub fn row_ours(table: &[u8], number: usize, random: &mut Random) -> Outcome {
    let table = Guarded::new(random, table);
    let mut answer = Guarded::junk(random, 56);
    let number =
        unsafe { raw::talc_row(table.pointer(), table.len(), number, answer.pointer_mut().cast()) };
    table.unchanged();
    Outcome { number, answer: answer.content(), memory: Vec::new() }
}

pub fn row_theirs(table: &[u8], number: usize) -> Outcome {
    let row = peer::table::row(table, number);
    let number = if row.is_err() { 18 } else { 0 };
    let mut answer = vec![0; 56];
    if let Ok(Some(row)) = row {
        let lengths = [&row.title, &row.user, &row.group].map(|text| text.len() as u64);
        let days = i64::from(row.days).to_le_bytes();
        answer = [&bytes_of(&[1])[..], &row.uuid, &bytes_of(&lengths), &days].concat();
    }
    Outcome { number, answer, memory: Vec::new() }
}

/// How often each number was answered; a test asks that each was met.
#[derive(Default)]
pub struct Met([u32; 20]);

impl Met {
    /// Compares, and counts the number.
    pub fn same(&mut self, ours: Outcome, theirs: Outcome, case: impl std::fmt::Debug) {
        assert_eq!(ours, theirs, "{case:?}");
        self.0[ours.number as usize] += 1;
    }

    pub fn cases(&self) -> u32 {
        self.0.iter().sum()
    }

    pub fn each_of(&self, numbers: &[usize], times: u32) {
        for number in numbers {
            assert!(self.0[*number] >= times, "{number} was met {} times", self.0[*number]);
        }
    }
}
