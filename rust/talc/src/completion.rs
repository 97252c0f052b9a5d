//! `talc completion`: what a shell needs to complete commands, options and files.
//!
//! Made of the tables that the command line is read by: a new command or option is in there.

use crate::arguments::{Arguments, Value, OPTIONS};
use crate::commands::{Command, Said, ALL};
use crate::show;
use crate::trouble::Trouble;

const SHELLS: &str = "bash zsh fish";

pub fn run(arguments: &Arguments) -> Result<Said, Trouble> {
    let shell = arguments.word(0);
    let script = match shell.to_str() {
        Some("bash") => bash(),
        Some("zsh") => zsh(),
        Some("fish") => fish(),
        _ => {
            let message = format!("there is no completion for {}", show::name(shell));
            return Err(Trouble::usage(format!("{message}: take one of {SHELLS}")));
        }
    };
    Ok(script.into())
}

fn commands() -> String {
    ALL.iter().map(|command| command.name).collect::<Vec<_>>().join(" ")
}

/// The options that have such a value.
fn valued(value: Value) -> Vec<&'static str> {
    OPTIONS.iter().filter(|option| option.1 == value).map(|option| option.0).collect()
}

fn options(command: &Command) -> Vec<&'static str> {
    let taken = OPTIONS.iter().map(|option| option.0).filter(|option| command.takes(option));
    taken.chain(["--help", "--version"]).collect()
}

/// A line of a shell's `case` for each command.
fn cases(line: impl Fn(&str, &str) -> String) -> String {
    ALL.iter().map(|command| line(command.name, &options(command).join(" "))).collect()
}

fn bash() -> String {
    let options = cases(|name, options| format!("        {name}) words='{options}' ;;\n"));
    let (files, numbers) = (valued(Value::File).join("|"), valued(Value::Number).join("|"));
    format!(
        r#"# Completion of talc for bash.
_talc() {{
    local word=${{COMP_WORDS[COMP_CWORD]}} before=${{COMP_WORDS[COMP_CWORD - 1]}} command='' words='' i
    for ((i = 1; i < COMP_CWORD; i++)); do
        case ${{COMP_WORDS[i]}} in
        {files}|{numbers}) ((i++)) ;;
        -*) ;;
        *) command=${{COMP_WORDS[i]}}; break ;;
        esac
    done
    COMPREPLY=()
    case $before in
    {files}) compopt -o filenames 2>/dev/null; mapfile -t COMPREPLY < <(compgen -f -- "$word"); return ;;
    {numbers}) return ;;
    esac
    if [[ $word == -* ]]; then
        words='--help --version'
        case $command in
{options}        esac
    elif [[ -z $command ]]; then
        words='{commands}'
    elif [[ $command == completion ]]; then
        words='{SHELLS}'
    elif [[ $command != explain ]]; then
        compopt -o filenames 2>/dev/null
        mapfile -t COMPREPLY < <(compgen -f -- "$word")
        return
    fi
    mapfile -t COMPREPLY < <(compgen -W "$words" -- "$word")
}}
complete -F _talc talc
"#,
        commands = commands(),
    )
}

fn zsh() -> String {
    let options = cases(|name, options| format!("        ({name}) compadd -- {options} ;;\n"));
    format!(
        r#"#compdef talc
# Completion of talc for zsh.
_talc() {{
    if (( CURRENT == 2 )); then
        compadd -- {commands} --help --version
    elif [[ ${{words[CURRENT]}} == -* ]]; then
        case ${{words[2]}} in
{options}        esac
    elif [[ ${{words[2]}} == completion ]]; then
        compadd -- {SHELLS}
    elif [[ ${{words[2]}} != explain ]]; then
        _files
    fi
}}
_talc "$@"
"#,
        commands = commands(),
    )
}

fn fish() -> String {
    let mut script = String::from("# Completion of talc for fish.\n");
    script += "complete -c talc -n __fish_use_subcommand -f\n";
    for always in ["help", "version"] {
        script += &format!("complete -c talc -l {always} -f\n");
    }
    for command in ALL.iter().map(|command| command.name) {
        script += &format!("complete -c talc -n __fish_use_subcommand -a {command}\n");
    }
    for (option, value) in OPTIONS {
        let takers = ALL.iter().filter(|command| command.takes(option));
        let takers: Vec<&str> = takers.map(|command| command.name).collect();
        let value = match value {
            Value::None => "",
            Value::File => " -r -F",
            Value::Number => " -x",
        };
        let (name, takers) = (option.trim_start_matches('-'), takers.join(" "));
        script += &format!(
            "complete -c talc -n '__fish_seen_subcommand_from {takers}' -l {name}{value}\n"
        );
    }
    let shells = "complete -c talc -n '__fish_seen_subcommand_from completion' -f -a";
    script + &format!("{shells} '{SHELLS}'\n")
}
