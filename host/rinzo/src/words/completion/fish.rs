//! For fish.

use crate::words::table::{COMMANDS, SHELLS, choices, is_file};

fn help(help: &str) -> String {
    format!("'{}'", help.replace('\\', "\\\\").replace('\'', "\\'"))
}

/// The lines for `rinzo.fish`.
pub fn lines() -> String {
    let mut text = String::from("# rinzo's words for fish\ncomplete -c rinzo -f\n");
    for command in &COMMANDS {
        text +=
            &format!("complete -c rinzo -n __fish_use_subcommand -a {} -d {}\n", command.name, help(command.summary));
        let seen = format!("complete -c rinzo -n '__fish_seen_subcommand_from {}'", command.name);
        if command.words.iter().any(|word| is_file(word)) {
            text += &format!("{seen} -F\n");
        }
        if command.words.contains(&"SHELL") {
            text += &format!("{seen} -a '{}'\n", SHELLS.join(" "));
        }
        for option in command.all_options() {
            let value = match option.value {
                None => String::new(),
                Some(value) if is_file(value) => " -r -F".to_string(),
                Some(value) => match choices(value) {
                    Some(words) => format!(" -x -a '{}'", words.join(" ")),
                    None => " -x".to_string(),
                },
            };
            text += &format!("{seen} -l {}{value} -d {}\n", option.name, help(option.help));
        }
    }
    text.trim_end().to_string()
}
