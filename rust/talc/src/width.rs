//! How many columns of a terminal a text takes.

type Range = (char, char);

/// Marks that stand on the character before them, joiners and variation selectors: of Latin, Greek,
/// Cyrillic, Hebrew, Arabic, Devanagari, Thai, Japanese, and those for symbols.
const NONE: [Range; 24] = [
    ('\u{300}', '\u{36f}'),
    ('\u{483}', '\u{489}'),
    ('\u{591}', '\u{5bd}'),
    ('\u{5bf}', '\u{5bf}'),
    ('\u{5c1}', '\u{5c2}'),
    ('\u{5c4}', '\u{5c5}'),
    ('\u{610}', '\u{61a}'),
    ('\u{64b}', '\u{65f}'),
    ('\u{670}', '\u{670}'),
    ('\u{6d6}', '\u{6dc}'),
    ('\u{900}', '\u{902}'),
    ('\u{93c}', '\u{93c}'),
    ('\u{941}', '\u{948}'),
    ('\u{94d}', '\u{94d}'),
    ('\u{e31}', '\u{e31}'),
    ('\u{e34}', '\u{e3a}'),
    ('\u{e47}', '\u{e4e}'),
    ('\u{1ab0}', '\u{1aff}'),
    ('\u{1dc0}', '\u{1dff}'),
    ('\u{200b}', '\u{200d}'),
    ('\u{20d0}', '\u{20ff}'),
    ('\u{3099}', '\u{309a}'),
    ('\u{fe00}', '\u{fe0f}'),
    ('\u{fe20}', '\u{fe2f}'),
];

/// Chinese, Japanese and Korean characters, their punctuation and wide forms, and emoji.
const TWO: [Range; 20] = [
    ('\u{1100}', '\u{115f}'),
    ('\u{231a}', '\u{231b}'),
    ('\u{23e9}', '\u{23ec}'),
    ('\u{2614}', '\u{2615}'),
    ('\u{2648}', '\u{2653}'),
    ('\u{26a1}', '\u{26a1}'),
    ('\u{2705}', '\u{2705}'),
    ('\u{274c}', '\u{274c}'),
    ('\u{2b50}', '\u{2b50}'),
    ('\u{2e80}', '\u{303e}'),
    ('\u{3041}', '\u{a4cf}'),
    ('\u{a960}', '\u{a97f}'),
    ('\u{ac00}', '\u{d7a3}'),
    ('\u{f900}', '\u{faff}'),
    ('\u{fe30}', '\u{fe6f}'),
    ('\u{ff00}', '\u{ff60}'),
    ('\u{ffe0}', '\u{ffe6}'),
    ('\u{1f300}', '\u{1f64f}'),
    ('\u{1f680}', '\u{1faff}'),
    ('\u{20000}', '\u{3fffd}'),
];

/// By the ranges above; every other character takes one. Where several are joined to one picture,
/// each is counted.
pub fn width(text: &str) -> usize {
    text.chars().map(of).sum()
}

fn of(c: char) -> usize {
    let within =
        |ranges: &[Range]| ranges.iter().any(|(first, last)| (*first..=*last).contains(&c));
    match c {
        ..'\u{300}' => 1,
        _ if within(&NONE) => 0,
        _ if within(&TWO) => 2,
        _ => 1,
    }
}

#[test]
fn widths() {
    let cases = [
        ("", 0),
        ("Lathe 3", 7),
        ("Säge", 4),
        ("Sa\u{308}ge", 4),
        ("旋盤", 4),
        ("ｶﾀｶﾅ", 4),
        ("한글", 4),
        ("Ключ", 4),
        ("🔑 1", 4),
        ("か\u{3099}", 2),
        ("❤\u{fe0f}", 1),
    ];
    for (text, columns) in cases {
        assert_eq!(width(text), columns, "{text}");
    }
}
