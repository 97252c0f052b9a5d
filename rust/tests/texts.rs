//! Where a text goes wrong: at every line of the grammar, cut, with a mark, with zeros, long. Each with
//! the number that it is made for, and against the independent implementation.

mod common;

use common::bodies::data;
use common::walks::told;
use peer::fields::fill_needed;
use peer::random::Random;
use std::ops::RangeInclusive;

/// The types of text.
const HEADER: [u8; 12] = [0x02, 0x03, 0x05, 0x06, 0x07, 0x08, 0x09, 0x0a, 0x0b, 0x0f, 0x10, 0x11];
const RECORD: [u8; 18] = [
    0x02, 0x03, 0x04, 0x05, 0x06, 0x0d, 0x0e, 0x0f, 0x10, 0x12, 0x14, 0x16, 0x18, 0x1c, 0x1d, 0x1e,
    0x1f, 0x20,
];

const TEXT: u64 = 6;
const BAD_TEXT: u64 = 7;
const MARK: &[u8] = b"\xef\xbb\xbf";

fn expected(wrong: Option<usize>) -> [u64; 3] {
    wrong.map_or([TEXT, 0, 0], |at| [BAD_TEXT, at as u64, 0])
}

/// A database name and a title go wrong there, or nowhere; whatever the fill is.
fn goes_wrong(random: &mut Random, data: &[u8], wrong: Option<usize>) {
    let fill = random.bytes(fill_needed(data.len()));
    for (kind, in_record) in [(0x09, false), (0x03, true)] {
        let told = told(random, kind, in_record, data, &fill);
        let end = &data[data.len().saturating_sub(60)..];
        assert_eq!(told, expected(wrong), "{} bytes, at the end {end:x?}", data.len());
    }
}

/// Well-formed text of 40 bytes: of one byte a character, and of one to four.
fn fillers() -> [String; 2] {
    ["n".repeat(40), "aä密🔑".repeat(4)]
}

/// Where a character starts, or the text ends.
fn boundaries(text: &str) -> Vec<usize> {
    (0..=text.len()).filter(|at| text.is_char_boundary(*at)).collect()
}

/// The text with these bytes put in.
fn with(text: &str, at: usize, bytes: &[u8]) -> Vec<u8> {
    let (before, after) = text.as_bytes().split_at(at);
    [before, bytes, after].concat()
}

/// RFC 3629, section 4, for more than one byte: the first, the second, and how many more.
const CHARACTERS: [(RangeInclusive<u8>, RangeInclusive<u8>, usize); 8] = [
    (0xc2..=0xdf, 0x80..=0xbf, 0),
    (0xe0..=0xe0, 0xa0..=0xbf, 1),
    (0xe1..=0xec, 0x80..=0xbf, 1),
    (0xed..=0xed, 0x80..=0x9f, 1),
    (0xee..=0xef, 0x80..=0xbf, 1),
    (0xf0..=0xf0, 0x90..=0xbf, 2),
    (0xf1..=0xf3, 0x80..=0xbf, 2),
    (0xf4..=0xf4, 0x80..=0x8f, 2),
];

const FIRSTS: [u8; 20] = [
    0x00, 0x7f, 0x80, 0xbf, 0xc0, 0xc1, 0xc2, 0xdf, 0xe0, 0xe1, 0xec, 0xed, 0xee, 0xef, 0xf0, 0xf1,
    0xf3, 0xf4, 0xf5, 0xff,
];
const SECONDS: [u8; 8] = [0x7f, 0x80, 0x8f, 0x90, 0x9f, 0xa0, 0xbf, 0xc0];

/// Bytes, and whether they are a character.
type Sequence = (Vec<u8>, bool);

/// A first byte that no other follows in a character.
fn singles(first: u8) -> Vec<Sequence> {
    let mut made = vec![(vec![first], first < 0x80)];
    if first >= 0x80 {
        made.extend(SECONDS.map(|second| (vec![first, second, 0x80, 0x80], false)));
    }
    made
}

/// With every second byte, and with every third and fourth behind a good second.
fn longer(first: u8, seconds: &RangeInclusive<u8>, more: usize) -> Vec<Sequence> {
    let whole = |second| [&[first, second], &[0x80, 0xbf][..more]].concat();
    let mut made = SECONDS.map(|second| (whole(second), seconds.contains(&second))).to_vec();
    for (at, byte) in (2..2 + more).flat_map(|at| [0x7f, 0x80, 0xbf, 0xc0].map(|b| (at, b))) {
        for second in [*seconds.start(), *seconds.end()] {
            let mut changed = whole(second);
            changed[at] = byte;
            made.push((changed, byte == 0x80 || byte == 0xbf));
        }
    }
    made
}

/// On both sides of every line of the grammar.
fn sequences() -> Vec<Sequence> {
    let of_first = |first: &u8| match CHARACTERS.iter().find(|c| c.0.contains(first)) {
        None => singles(*first),
        Some((_, seconds, more)) => longer(*first, seconds, *more),
    };
    FIRSTS.iter().flat_map(of_first).collect()
}

/// Between characters: what is none is told where it starts, and behind a character the next fault is.
#[test]
fn every_line_of_the_grammar() {
    let random = &mut Random(1);
    let mut met = [0, 0];
    for filler in fillers() {
        for at in boundaries(&filler) {
            for (bytes, good) in sequences() {
                let text = with(&filler, at, &bytes);
                let final_zero = text.ends_with(&[0]);
                goes_wrong(random, &text, (!good || final_zero).then_some(at));
                for fault in [0xff, 0] {
                    let first = if good { text.len() } else { at };
                    goes_wrong(random, &[&text[..], &[fault]].concat(), Some(first));
                }
                met[usize::from(good)] += 1;
            }
        }
    }
    assert!(met.iter().all(|count| *count > 5000), "{met:?}");
}

/// Within a character: where that starts.
#[test]
fn characters_torn_apart() {
    let random = &mut Random(2);
    let filler = &fillers()[1];
    let within = (0..filler.len()).filter(|at| !filler.is_char_boundary(*at));
    for at in within {
        let start = (0..at).rev().find(|start| filler.is_char_boundary(*start));
        for (bytes, _) in sequences() {
            // One of 80 to BF might go on with the character.
            if !(0x80..=0xbf).contains(&bytes[0]) {
                goes_wrong(random, &with(filler, at, &bytes), start);
            }
        }
    }
}

/// Each start of a character at the end, with nothing, a zero or two behind it; and with a fill that
/// would be the rest of it.
#[test]
fn characters_cut_at_the_end() {
    let random = &mut Random(3);
    let characters = ["\u{80}", "ä", "\u{7ff}", "\u{800}", "密", "\u{ffff}", "\u{10000}", "🔑"];
    for filler in fillers() {
        for at in boundaries(&filler) {
            for character in characters.into_iter().chain(["\u{10ffff}"]) {
                for end in 1..character.len() {
                    let (start, rest) = character.as_bytes().split_at(end);
                    let cut = [&filler.as_bytes()[..at], start].concat();
                    for zeros in [&[][..], &[0], &[0, 0]] {
                        goes_wrong(random, &[&cut, zeros].concat(), Some(at));
                    }
                    let mut fill = [rest, &[0x80; 15]].concat();
                    fill.truncate(fill_needed(cut.len()));
                    assert_eq!(told(random, 0x03, true, &cut, &fill), expected(Some(at)));
                    let whole = [&filler.as_bytes()[..at], character.as_bytes()].concat();
                    goes_wrong(random, &whole, None);
                }
            }
        }
    }
}

/// A mark is told at 0, whatever is behind it.
#[test]
fn marks() {
    let random = &mut Random(4);
    goes_wrong(random, MARK, Some(0));
    let behind: [&[u8]; 10] = [
        b"Lathe",
        "密".as_bytes(),
        MARK,
        b"\xff",
        b"Lathe \xffx",
        b"Lathe \xc3",
        b"\0",
        b"Lathe\0",
        b"Lathe\xc3\0",
        b"La\0the",
    ];
    for behind in behind {
        goes_wrong(random, &[MARK, behind].concat(), Some(0));
        let fill = vec![0; fill_needed(3 + behind.len())];
        let told = told(random, 0x05, true, &[MARK, behind].concat(), &fill);
        assert_eq!(told, [BAD_TEXT, 0, 0]);
    }
}

/// What is nearly a mark, and one behind the start, are characters like others.
#[test]
fn no_marks() {
    let random = &mut Random(5);
    for start in 1..3 {
        goes_wrong(random, &MARK[..start], Some(0));
        goes_wrong(random, &[b"a", &MARK[..start]].concat(), Some(1));
        goes_wrong(random, &[&MARK[..start], b"a"].concat(), Some(0));
    }
    for near in ["\u{fefe}", "\u{fec0}", "\u{febf}", "\u{ff3f}", "\u{eeff}"] {
        goes_wrong(random, format!("{near}a").as_bytes(), None);
    }
    for filler in fillers() {
        for at in boundaries(&filler).into_iter().skip(1) {
            let marked = with(&filler, at, MARK);
            goes_wrong(random, &marked, None);
            goes_wrong(random, &[&marked[..], &[0]].concat(), Some(43));
            goes_wrong(random, &[&marked[..], &[0xff]].concat(), Some(43));
        }
    }
}

/// A zero byte is a character; only as the last it is told, and only where nothing is before.
#[test]
fn zeros() {
    let random = &mut Random(6);
    for count in 1..=40 {
        goes_wrong(random, &vec![0; count], Some(count - 1));
        goes_wrong(random, &[&vec![0; count][..], b"n"].concat(), None);
        goes_wrong(random, &[&vec![0; count][..], &[0xff]].concat(), Some(count));
    }
    for filler in fillers() {
        for at in boundaries(&filler) {
            let zero = with(&filler, at, &[0]);
            goes_wrong(random, &zero, (at == 40).then_some(40));
            goes_wrong(random, &[&zero[..], &[0]].concat(), Some(41));
            goes_wrong(random, &[&zero[..], &[0xff]].concat(), Some(41));
            let before = with(&filler, at, &[0xff, 0]);
            goes_wrong(random, &before, Some(at));
            goes_wrong(random, &[&before[..], &[0]].concat(), Some(at));
        }
    }
}

/// Of two faults the first, with a final zero and without; with a mark before them, 0.
#[test]
fn several_faults() {
    let random = &mut Random(7);
    let faults: [&[u8]; 4] = [b"\xff", b"\xc3", b"\xe0\x80\x80", b"\xf0\x9f\x94"];
    for filler in fillers() {
        let places = boundaries(&filler);
        for (i, first) in places.iter().enumerate() {
            for second in &places[i + 1..] {
                let [one, two] = [random.pick(&faults), random.pick(&faults)];
                let both = with(&filler, *second, two);
                let both = [&both[..*first], one, &both[*first..]].concat();
                goes_wrong(random, &both, Some(*first));
                goes_wrong(random, &[&both[..], &[0]].concat(), Some(*first));
                goes_wrong(random, &[MARK, &both].concat(), Some(0));
            }
        }
    }
}

/// In every type of text; the same bytes in any other are no text at all.
#[test]
fn every_type() {
    let random = &mut Random(8);
    let texts: [(&[u8], Option<usize>); 9] = [
        (b"Lathe", None),
        (b"\xff", Some(0)),
        (b"L\xff", Some(1)),
        (b"Lathe of 16 b.\xc3\xff", Some(14)),
        (b"Lathe\xf0\x9f", Some(5)),
        (b"Lathe\0", Some(5)),
        (b"Lat\0", Some(3)),
        (b"\xef\xbb\xbfL\xff", Some(0)),
        ("Drehbank ä密🔑\0".as_bytes(), Some(18)),
    ];
    for (data, wrong) in texts {
        let fill = random.bytes(fill_needed(data.len()));
        for kind in 0..0xff {
            for (in_record, types) in [(false, &HEADER[..]), (true, &RECORD)] {
                let told = told(random, kind, in_record, data, &fill);
                match types.contains(&kind) {
                    true => assert_eq!(told, expected(wrong), "type {kind}, {data:x?}"),
                    false => assert!(![TEXT, BAD_TEXT].contains(&told[0]), "type {kind}"),
                }
            }
        }
    }
}

/// On both sides of what one byte and two can count, at the start, in the middle and at the end.
#[test]
fn long_texts() {
    let random = &mut Random(9);
    let plain = vec![b'n'; 70_000];
    let wide = "aä密🔑".repeat(7000);
    goes_wrong(random, &plain, None);
    goes_wrong(random, wide.as_bytes(), None);
    goes_wrong(random, &[MARK, &plain].concat(), Some(0));
    goes_wrong(random, &[&plain[..], &[0]].concat(), Some(70_000));
    goes_wrong(random, &[wide.as_bytes(), &[0]].concat(), Some(70_000));
    let near = [254, 255, 256, 257, 34_999, 35_000, 65_534, 65_535, 65_536, 65_537, 69_998, 69_999];
    for at in near.into_iter().chain([0, 1]) {
        let mut spoilt = plain.clone();
        spoilt[at] = 0xff;
        goes_wrong(random, &spoilt, Some(at));
        goes_wrong(random, &[&spoilt[..], &[0]].concat(), Some(at));
        spoilt[at] = 0;
        goes_wrong(random, &spoilt, (at == 69_999).then_some(at));
        let start = (0..=at).rev().find(|start| wide.is_char_boundary(*start)).unwrap();
        goes_wrong(random, &with(&wide, start, &[0xff]), Some(start));
        goes_wrong(random, &[&wide.as_bytes()[..start], &[0xf0, 0x9f]].concat(), Some(start));
    }
}

/// Past what three bytes can count, and what a file can hold.
#[test]
fn the_longest_texts() {
    let random = &mut Random(10);
    let mut text = vec![b'n'; 1 << 24 | 5];
    let last = text.len() - 1;
    for byte in [0, 0x80, 0xc3] {
        text[last] = byte;
        goes_wrong(random, &text, Some(last));
    }
    text[4_194_000] = 0xff;
    goes_wrong(random, &text, Some(4_194_000));
}

/// By the request's own words alone: what is before the number is well formed, and no longer start
/// is, but for a mark and a final zero.
#[test]
fn any_texts() {
    let random = &mut Random(11);
    let mut met = [0; 4];
    while met.iter().sum::<u32>() < 40_000 {
        let data = data(random);
        if data.is_empty() {
            continue;
        }
        let fill = random.bytes(fill_needed(data.len()));
        let formed = |end: usize| std::str::from_utf8(&data[..end]).is_ok();
        let [kind, at, _] = told(random, 0x03, true, &data, &fill);
        let at = at as usize;
        let sort = if kind == TEXT {
            assert!(formed(data.len()) && !data.starts_with(MARK) && !data.ends_with(&[0]));
            0
        } else if data.starts_with(MARK) {
            assert_eq!(at, 0);
            1
        } else if formed(data.len()) {
            assert_eq!((at, data[at]), (data.len() - 1, 0));
            2
        } else {
            assert!(formed(at) && (at + 1..=data.len()).all(|end| !formed(end)), "{data:x?}");
            3
        };
        met[sort] += 1;
    }
    assert!(met.iter().all(|count| *count > 300), "{met:?}");
}
