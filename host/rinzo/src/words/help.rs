//! Help, made from the table.

use super::table::{COMMANDS, Command, GROUPS, STATUSES};

/// The help of the whole program.
pub fn overview() -> String {
    let mut text = String::from("rinzo: SDD files\n\nusage: rinzo COMMAND ... [--json]\n");
    for (group, heading) in GROUPS {
        text += &format!("\n{heading}:\n");
        for command in COMMANDS.iter().filter(|command| command.group == group) {
            text += &format!("  {:<24}{}\n", command.usage(), command.summary);
        }
    }
    text += "\nFiles of the old form, from before 1993, are looked at like any other, and not changed.\n";
    text += "`rinzo convert` makes a second file of one, of the current form, and the other way.\n";
    text + "`rinzo COMMAND --help` says more; after -- a word is no option.\n" + &statuses()
}

/// The help of a command.
pub fn of(command: &Command) -> String {
    let mut text = format!("usage: rinzo {} [options]\n\n{}\n", command.usage(), command.summary);
    for details in command.details {
        text += &format!("{details}\n");
    }
    text += "\n";
    for option in command.all_options() {
        text += &format!("  {:<20}{}\n", option.usage(), option.help);
    }
    text + "\n" + &statuses()
}

/// The exit statuses, in lines of 100 letters.
fn statuses() -> String {
    let mut text = "Exit status:".to_string();
    let mut column = text.len();
    for (i, (status, meaning)) in STATUSES.iter().enumerate() {
        let part = format!(" {status} {meaning}{}", if i + 1 == STATUSES.len() { "." } else { ";" });
        if column + part.len() > 100 {
            text += "\n";
            column = 0;
        }
        text += if column == 0 { part.trim_start() } else { &part };
        column += part.len();
    }
    text
}
