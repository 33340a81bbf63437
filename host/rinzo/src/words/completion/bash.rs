//! For bash.

use crate::words::table::{COMMANDS, Command, SHELLS, choices, is_file};

/// What stands in the place of a command: the commands, and the words that are none.
fn first_words() -> String {
    let names = COMMANDS.iter().map(|command| command.name);
    names.chain(["help", "--help", "--version"]).collect::<Vec<_>>().join(" ")
}

/// The options of all commands whose values are of a kind, as a pattern, without repeats.
fn options_with(kind: impl Fn(&str) -> bool) -> String {
    let mut names: Vec<String> = COMMANDS
        .iter()
        .flat_map(Command::all_options)
        .filter(|option| option.value.is_some_and(&kind))
        .map(|option| format!("--{}", option.name))
        .collect();
    names.sort();
    names.dedup();
    names.join(" | ")
}

/// The options whose values are one of a few words, each with those.
fn options_with_choices() -> String {
    let all = COMMANDS.iter().flat_map(Command::own_options);
    let few = all.filter_map(|option| Some((option.name, choices(option.value?)?)));
    few.map(|(name, words)| format!("    --{name}) compopt +o default; words='{}' ;;\n", words.join(" "))).collect()
}

/// The options of each command, and the commands that there is help for.
fn words_by_command() -> String {
    let of = |command: &Command| {
        let options: Vec<String> = command.all_options().map(|option| format!("--{}", option.name)).collect();
        format!("        {}) words='{}' ;;\n", command.name, options.join(" "))
    };
    let names: Vec<&str> = COMMANDS.iter().map(|command| command.name).collect();
    COMMANDS.iter().map(of).collect::<String>() + &format!("        help) words='{}' ;;\n", names.join(" "))
}

/// An empty reply means the names of files, unless that is turned off.
pub fn lines() -> String {
    format!(
        "# rinzo's words for bash
_rinzo() {{
    local word=${{COMP_WORDS[COMP_CWORD]}} before=${{COMP_WORDS[COMP_CWORD - 1]}} words=''
    COMPREPLY=()
    case $before in
    {files}) return ;;
{few}    {others}) compopt +o default; return ;;
    esac
    if [ -n \"$words\" ]; then
        :
    elif [ \"$COMP_CWORD\" -eq 1 ]; then
        words='{first}'
        compopt +o default
    else
        case ${{COMP_WORDS[1]}} in
{by_command}        esac
        case ${{COMP_WORDS[1]}},$word in
        completion,[!-]* | completion,) words='{shells}' ;;
        help,* | *,-*) ;;
        *) return ;;
        esac
    fi
    mapfile -t COMPREPLY < <(compgen -W \"$words\" -- \"$word\")
}}
complete -o default -F _rinzo rinzo",
        files = options_with(is_file),
        few = options_with_choices(),
        others = options_with(|value| !is_file(value) && choices(value).is_none()),
        first = first_words(),
        by_command = words_by_command(),
        shells = SHELLS.join(" ")
    )
}
