//! `--json`: valid whatever a safe holds, with the same keys always, and with no password.

#[path = "../../tests/common/mod.rs"]
mod common;
mod process;

use common::bodies::{data, join, part};
use peer::fields::END;
use peer::random::Random;
use process::json::Json;
use process::*;

#[test]
fn a_list() {
    let folder = Folder::new("json-list");
    let file = folder.put("a.psafe3", &safe());
    let ended = talc_with(&["list", path(&file), "--json"]);
    assert_eq!(ended.status, 0, "{}", ended.err);
    let logins = Json::read(&ended.out);
    let keys = ["cancelled", "expires", "group", "record", "title", "user", "uuid"];
    assert!(logins.list().iter().all(|login| login.keys() == keys));
    let [lathe, printer] = logins.list() else { panic!("{}", ended.out) };
    assert_eq!(lathe.at("title"), &Json::text("Drehbank\t3\u{1b}[2J \\t ä"));
    assert_eq!(lathe.at("expires"), &Json::text("2030-03-17T17:46:40Z"));
    assert_eq!(lathe.at("uuid"), &Json::text("0123456789abcdef30313233343536ff"));
    assert_eq!((printer.at("record"), printer.at("user")), (&Json::Number(1), &Json::Null));
    let state = folder.0.join("state");
    let trace = folder.put("trace", &[&[9; 16][..], &[1, 0, 0, 0, 2], &[0; 11]].concat());
    assert_eq!(talc(&["replay", path(&state), path(&trace)], b"").status, 0);
    let ended = talc_with(&["list", path(&file), "--json", "--state", path(&state)]);
    let logins = Json::read(&ended.out);
    let cancelled: Vec<&Json> = logins.list().iter().map(|login| login.at("cancelled")).collect();
    assert_eq!(cancelled, [&Json::Flag(false), &Json::Flag(true)]);
}

/// Of what is refused, the line on standard error comes too.
#[test]
fn a_check() {
    let folder = Folder::new("json-check");
    let mut other = safe();
    other[40] ^= 1;
    let (good, wrong) = (folder.put("a\u{1b}.psafe3", &safe()), folder.put("b.psafe3", &other));
    let check = |file: &std::path::Path| {
        let ended = talc_with(&["check", path(file), "--json"]);
        (ended.status, Json::read(&ended.out), ended.err)
    };
    let keys = [
        "accepted",
        "blocks",
        "compressions",
        "file",
        "header_fields",
        "message",
        "records",
        "status",
    ];
    let (status, object, err) = check(&good);
    assert_eq!((status, object.keys(), err.as_str()), (0, keys.to_vec(), ""));
    assert_eq!(object.at("file"), &Json::text(path(&good)));
    assert_eq!(object.at("accepted"), &Json::Flag(true));
    assert_eq!(object.at("records"), &Json::Number(2));
    assert_eq!(object.at("message"), &Json::Null);
    let (status, object, err) = check(&wrong);
    assert_eq!((status, object.keys()), (8, keys.to_vec()));
    assert!(err.contains("refused, 8: "), "{err}");
    assert_eq!(object.at("accepted"), &Json::Flag(false));
    assert_eq!(object.at("status"), &Json::Number(8));
    assert_eq!(object.at("records"), &Json::Null);
    // A passphrase that can't be read says nothing of the file.
    let ended = talc(&["check", path(&good), "--json", "--passphrase-file", "/no/such"], b"");
    assert_eq!((ended.status, ended.out.as_str()), (66, ""));
}

#[test]
fn of_no_login() {
    let folder = Folder::new("json-none");
    let file = folder.put("a.psafe3", &safe_of(&[]));
    assert_eq!(talc_with(&["list", path(&file), "--json"]).out, "[]\n");
    let table = folder.put("table", b"");
    assert_eq!(talc(&["rows", path(&table), "--json"], b"").out, "[]\n");
}

#[test]
fn one_entry() {
    let folder = Folder::new("json-show");
    let login = [part(0x03, b"S\xe4ge"), part(0x05, b"one\ntwo"), part(0x06, "pä\"ss".as_bytes())];
    let file = folder.put("a.psafe3", &safe_of(&[&login]));
    let show = |options: &[&str]| {
        let ended = talc_with(&[&["show", path(&file), "0", "--json"], options].concat());
        assert_eq!(ended.status, 0, "{}", ended.err);
        Json::read(&ended.out)
    };
    let (hidden, revealed) = (show(&[]), show(&["--reveal"]));
    let keys = [
        "accessed",
        "created",
        "email",
        "expires",
        "fields",
        "group",
        "modified",
        "notes",
        "password",
        "password_modified",
        "record",
        "title",
        "url",
        "user",
        "uuid",
    ];
    assert!(hidden.keys() == keys && revealed.keys() == keys);
    assert_eq!(hidden.at("notes"), &Json::text("one\ntwo"));
    assert_eq!(hidden.at("password"), &Json::Null);
    assert_eq!(revealed.at("password"), &Json::text("pä\"ss"));
    let title = hidden.at("title");
    assert_eq!(
        (title.at("bad_text_at"), title.at("hex")),
        (&Json::Number(1), &Json::text("53e46765"))
    );
    let password = &hidden.at("fields").list()[3];
    assert_eq!(password.at("hidden"), &Json::Flag(true));
    assert_eq!((password.at("value"), password.at("length")), (&Json::Null, &Json::Null));
    assert_eq!(revealed.at("fields").list()[3].at("value"), &Json::text("pä\"ss"));
}

#[test]
fn rows() {
    let folder = Folder::new("json-rows");
    let file = folder.put("a.psafe3", &safe());
    let table = folder.0.join("table");
    for (now, days, expired) in [("1900000000", 0, false), ("1900000001", -1, true)] {
        assert_eq!(talc_with(&["table", path(&file), path(&table), "--now", now]).status, 0);
        let rows = Json::read(&talc(&["rows", path(&table), "--json"], b"").out);
        let [lathe, printer] = rows.list() else { panic!("{rows:?}") };
        assert_eq!(lathe.keys(), ["days", "expired", "group", "title", "user", "uuid"]);
        assert_eq!(
            (lathe.at("days"), lathe.at("expired")),
            (&Json::Number(days), &Json::Flag(expired))
        );
        assert_eq!((printer.at("days"), printer.at("user")), (&Json::Null, &Json::text("")));
    }
}

/// Every type with data of any shape. Of hidden ones no byte is in there.
#[test]
fn any_fields() {
    let folder = Folder::new("json-any");
    for seed in 0..10 {
        let random = &mut Random(seed);
        let mut fields = vec![part(0x00, &[0x0e, 0x03])];
        fields.extend((0x01..END).map(|kind| part(kind, &data(random))));
        fields.push(part(END, &[]));
        let secret = b"QQQQQQ";
        fields.extend([part(0x01, UUID), part(0x03, &[0xff]), part(0x06, secret)]);
        let hidden = |kind: &u8| matches!(kind, 0x0f | 0x1b..=0x20);
        let rest = (0x00..END).filter(|kind| ![0x01, 0x03, 0x06].contains(kind));
        fields.extend(rest.map(|kind| match hidden(&kind) {
            true => part(kind, secret),
            false => part(kind, &data(random)),
        }));
        fields.push(part(END, &[]));
        let file = folder.put("a.psafe3", &safe_around(&join(random, &fields), 2048));
        for arguments in
            [&["list", path(&file)][..], &["fields", path(&file)], &["show", path(&file), "0"]]
        {
            let ended = talc_with(&[arguments, &["--json"]].concat());
            assert_eq!(ended.status, 0, "{}", ended.err);
            assert!(!ended.out.contains("QQQ") && !ended.out.contains("515151"));
            let json = Json::read(&ended.out);
            if arguments[0] == "fields" {
                assert_eq!(json.at("header").list().len(), 255);
                assert_eq!(json.at("records").list()[0].at("fields").list().len(), 255);
            }
        }
    }
}
