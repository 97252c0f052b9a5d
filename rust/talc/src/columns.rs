//! Lines of columns.

use crate::arguments::Arguments;
use crate::trouble::Trouble;
use crate::width::width;
use crate::{fault, show};
use std::io::IsTerminal;
use talcfeather::{Field, Value};

/// The columns of a line; raw, they may be any bytes.
pub type Line = Vec<Vec<u8>>;

/// Whether texts go out as they are. A terminal is not handed what could steer it.
pub fn raw(arguments: &Arguments) -> Result<bool, Trouble> {
    let raw = arguments.has("--raw");
    if raw && std::io::stdout().is_terminal() {
        return Err(Trouble::usage("--raw is for a pipe or a file, and not for a terminal"));
    }
    Ok(raw)
}

/// The text of a field, raw or written out; where it is damaged, it is marked.
pub fn text(field: &Field, raw: bool) -> Vec<u8> {
    let text = || show::text(field.data);
    match field.value {
        _ if raw => field.data.to_vec(),
        Value::BadText(byte) => format!("{} (BadText: {})", text(), fault::at(byte)).into_bytes(),
        _ => text().into_bytes(),
    }
}

/// Aligned on a terminal, else with tabs between.
pub fn told(lines: &[Line]) -> Vec<u8> {
    if !std::io::stdout().is_terminal() {
        return lines.iter().flat_map(|line| [&line.join(&b'\t')[..], b"\n"].concat()).collect();
    }
    let line = |line: &Line| line.iter().map(|text| String::from_utf8_lossy(text).into()).collect();
    let lines: Vec<Vec<String>> = lines.iter().map(line).collect();
    let widths = widths(&lines);
    lines.iter().map(|line| aligned(line, &widths)).collect::<String>().into_bytes()
}

/// Of each column the widest text, and two blanks.
fn widths(lines: &[Vec<String>]) -> Vec<usize> {
    let mut widths = vec![0; lines.first().map_or(0, Vec::len)];
    for (i, text) in lines.iter().flat_map(|line| line.iter().enumerate()) {
        widths[i] = widths[i].max(width(text) + 2);
    }
    widths
}

fn aligned(line: &[String], widths: &[usize]) -> String {
    let columns = line.iter().zip(widths);
    let filled = |(text, wide): (&String, &usize)| text.clone() + &" ".repeat(wide - width(text));
    let line: String = columns.map(filled).collect();
    line.trim_end().to_string() + "\n"
}

#[test]
fn alignment() {
    let line = |texts: [&str; 5]| texts.map(String::from).to_vec();
    let lines = [
        line(["Lathe 3", "ä", "", "x", "cancelled"]),
        line(["Lathe 3", "äöüß", "", "", ""]),
        line(["", "", "", "xy", ""]),
    ];
    let widths = widths(&lines);
    assert_eq!(widths, [9, 6, 2, 4, 11]);
    assert_eq!(aligned(&lines[0], &widths), "Lathe 3  ä       x   cancelled\n");
    assert_eq!(aligned(&lines[1], &widths), "Lathe 3  äöüß\n");
}

#[test]
fn wide_characters() {
    let lines = ["Lathe 3", "旋盤"].map(|title| vec![title.to_string(), "xy".to_string()]);
    let widths = widths(&lines);
    assert_eq!(widths, [9, 4]);
    assert_eq!(aligned(&lines[1], &widths), "旋盤     xy\n");
}
