//! `talc explain`: what a number means, and what to do about it.

use crate::arguments::Arguments;
use crate::commands::Said;
use crate::show;
use crate::trouble::{self, Trouble};
use talcfeather::Refusal;

/// The statuses that are no refusals of the library: number, meaning, what to do.
const OWN: &[(u32, &str, &str)] = &[
    (0, "done, and nothing was refused", "nothing"),
    (
        64,
        "the arguments are wrong, or there is no terminal to ask at",
        "read the line on standard error, and talc --help",
    ),
    (
        66,
        "a safe, passphrase, state, trace or table can't be read",
        "look whether the name is right, the file is there, and you may read it",
    ),
    (
        67,
        "no record has that number or UUID, and no login these words",
        "give fewer words, or look at talc list",
    ),
    (
        68,
        "several entries match, and nothing was shown or written",
        "give the number of one, as listed on standard error",
    ),
    (
        70,
        "written again, the file differs; this contradicts what is proved",
        "keep the file, and tell the makers of talc",
    ),
    (
        73,
        "a new file, state or table can't be written, and what was there is as it was",
        "look whether the folder is there, you may write to it, and the disk has room",
    ),
    (74, "standard output can't be written to", "look whether it is open, and the disk has room"),
    (75, "the safe is being written by another", "try again when the other has ended"),
    (77, "given up at the passphrase, and nothing was done", "begin again"),
];

pub fn run(arguments: &Arguments) -> Result<Said, Trouble> {
    let word = arguments.word(0);
    let number = word.to_str().and_then(|word| word.parse().ok());
    let Some((meaning, advice)) = number.and_then(explained) else {
        let message = format!("there is no number {}: --help lists them", show::name(word));
        return Err(Trouble::usage(message));
    };
    Ok(format!("Means: {meaning}\nTo do: {advice}\n").into())
}

fn explained(number: u32) -> Option<(&'static str, &'static str)> {
    let own = OWN.iter().find(|own| own.0 == number);
    let refusal = || match Refusal::from_number(number)? {
        Refusal::Other(_) => None,
        refusal => Some((refusal.meaning(), trouble::advice(refusal))),
    };
    own.map(|(_, meaning, advice)| (*meaning, *advice)).or_else(refusal)
}

/// Every number that the help lists is explained, and every number that is explained is listed.
#[test]
fn all() {
    let listed = crate::HELP.lines().skip_while(|line| !line.starts_with("Exit status"));
    let numbers =
        listed.filter_map(|line| line.strip_prefix("  ")?.split(' ').next()?.parse().ok());
    let listed: Vec<u32> = numbers.collect();
    let explained: Vec<u32> = (0..256).filter(|number| explained(*number).is_some()).collect();
    assert_eq!(listed, explained);
}
