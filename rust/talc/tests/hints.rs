//! A passphrase that looks right and is not: a word on why.

#[path = "../../tests/common/mod.rs"]
mod common;
mod process;

use process::*;

const CR: &str = "it ends in a carriage return";
const MARK: &str = "it starts with a byte order mark";

#[test]
fn hints() {
    let folder = Folder::new("hints");
    let file = folder.put("a.psafe3", &safe());
    let cases: [(&[u8], Option<&str>); 8] = [
        (b"floor 2\r\n", Some(CR)),
        (b"floor 2\r", Some(CR)),
        (b"\xef\xbb\xbffloor 2\n", Some(MARK)),
        (b"\xef\xbb\xbffloor 2\r\n", Some(MARK)),
        (b"\xff\xfef\0l\0", Some(MARK)),
        (b"floor 3\n", None),
        (b"floor\r2", None),
        (b"", None),
    ];
    for (passphrase, hint) in cases {
        let stored = folder.put("passphrase", passphrase);
        let by_file = talc(&["check", path(&file), "--passphrase-file", path(&stored)], b"");
        let by_stdin = talc(&["check", path(&file), "--passphrase-stdin"], passphrase);
        for ended in [by_file, by_stdin] {
            assert_eq!((ended.status, ended.err.lines().count()), (8, 1), "{}", ended.err);
            assert!(ended.err.contains("refused, 8: this is not the passphrase"), "{}", ended.err);
            for words in [CR, MARK] {
                assert_eq!(ended.err.contains(words), hint == Some(words), "{}", ended.err);
            }
            assert!(!ended.err.contains("floor"), "{}", ended.err);
        }
    }
}

/// Such a passphrase is one all the same where it is the file's.
#[test]
fn no_hint_where_it_fits() {
    use peer::safe::{assemble, Parts};
    let folder = Folder::new("fits");
    let (passphrase, body) = (b"\xef\xbb\xbffloor 2\r".to_vec(), body());
    let parts = Parts {
        passphrase: passphrase.clone(),
        salt: [1; 32],
        iter: 2048,
        k: [2; 32],
        l: [3; 32],
        iv: [4; 16],
    };
    let mac = peer::hmac::hmac(&parts.l, &peer::body::covered(&body));
    let file = folder.put("a.psafe3", &assemble(&parts, &body, &mac));
    let ended = talc(&["check", path(&file), "--passphrase-stdin"], &passphrase);
    assert_eq!((ended.status, ended.err.as_str()), (0, ""));
}
