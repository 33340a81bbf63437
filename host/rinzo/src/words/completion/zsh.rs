//! For zsh.

use crate::words::table::{COMMANDS, Opt, choices, is_file};

/// A word as `_arguments` wants it: what it is called, and how it is completed.
fn word(name: &str) -> String {
    let bare = name.trim_matches(['[', ']', '.']);
    let mark = match name {
        _ if name.starts_with('[') => "::",
        _ if name.ends_with("...") => "*:",
        _ => ":",
    };
    format!("'{mark}{}'", named(bare))
}

/// What a word or a value is called, and how it is completed.
fn named(name: &str) -> String {
    match choices(name) {
        _ if is_file(name) => format!("{name}:_files"),
        Some(words) => format!("{name}:({})", words.join(" ")),
        None => format!("{name}: "),
    }
}

/// Help inside a quoted specification.
fn help(help: &str) -> String {
    help.replace('\'', "'\\''").replace(':', "\\:").replace('[', "\\[").replace(']', "\\]")
}

fn option(option: &Opt) -> String {
    let value = option.value.map_or(String::new(), |value| format!(":{}", named(value)));
    format!("'--{}[{}]{value}'", option.name, help(option.help))
}

/// The lines for `_rinzo`.
pub fn lines() -> String {
    let mut text =
        String::from("#compdef rinzo\n# rinzo's words for zsh\n_rinzo() {\n    local -a listed\n    listed=(\n");
    for command in &COMMANDS {
        text += &format!("        '{}:{}'\n", command.name, help(command.summary));
    }
    text += "        'help:say more of a command'
    )
    if (( CURRENT == 2 )); then
        _describe -t commands command listed
        return
    fi
    shift words
    (( CURRENT-- ))
    case $words[1] in
    help) _describe -t commands command listed ;;
";
    for command in &COMMANDS {
        let specs = command.all_options().map(option).chain(command.words.iter().map(|name| word(name)));
        let specs = specs.map(|spec| format!(" \\\n        {spec}")).collect::<String>();
        text += &format!("    {}) _arguments -s{specs} ;;\n", command.name);
    }
    text + "    esac
}
if [ \"$funcstack[1]\" = _rinzo ]; then _rinzo \"$@\"; else compdef _rinzo rinzo; fi"
}
