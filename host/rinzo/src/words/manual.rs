//! The man page, made from the table.

use super::table::{COMMANDS, COMMON, Command, GROUPS, Opt, STATUSES};

/// The page, in the form that `man` reads.
pub fn page() -> String {
    let mut text = format!(
        ".TH RINZO 1 \"\" \"rinzo {}\" \"SDD files\"
.SH NAME
rinzo \\- SDD files: look at them, save scans to them
.SH SYNOPSIS
.B rinzo
.I COMMAND
\\&... [\\fB\\-\\-json\\fR]
.SH DESCRIPTION
An SDD file holds scans in slots.
Files of the old form, from before 1993, are looked at like any other, and not changed.
\\fBrinzo convert\\fR makes a second file of one, of the current form, and the other way.
Output is plain text, or with \\fB\\-\\-json\\fR one JSON object a line.
A save has said \\fBsaved\\fR only once the scan was read back from the device and is whole.
After \\fB\\-\\-\\fR a word is no option.
",
        env!("CARGO_PKG_VERSION")
    );
    for (group, heading) in GROUPS {
        text += &format!(".SH TO {}\n", plain(&heading.to_uppercase()));
        for command in COMMANDS.iter().filter(|command| command.group == group) {
            text += &of(command);
        }
    }
    text += &format!(".SH OPTIONS OF EVERY COMMAND\n{}.SH EXIT STATUS\n", options(COMMON.iter()));
    for (status, meaning) in STATUSES {
        text += &format!(".TP\n.B {status}\n{}\n", plain(meaning));
    }
    text.trim_end().to_string()
}

/// One command, with its options.
fn of(command: &Command) -> String {
    let words: String = command.words.iter().map(|word| format!(" \\fI{}\\fR", plain(word))).collect();
    let mut text = format!(".SS \\fB{}\\fR{words}\n{}.\n", command.name, plain(command.summary));
    for line in command.details.iter().flat_map(|details| details.lines()) {
        text += &format!(".br\n{}\n", plain(line));
    }
    text + &options(command.own_options())
}

fn options<'a>(options: impl Iterator<Item = &'a Opt>) -> String {
    let line = |option: &Opt| {
        let value = option.value.map_or(String::new(), |value| format!(" \\fI{value}\\fR"));
        format!(".TP\n\\fB\\-\\-{}\\fR{value}\n{}\n", plain(option.name), plain(option.help))
    };
    options.map(line).collect()
}

/// Text in which nothing is a command of the page's language.
fn plain(text: &str) -> String {
    let text = text.replace('\\', "\\e").replace('-', "\\-").replace('\'', "\\(aq");
    if text.starts_with('.') { format!("\\&{text}") } else { text }
}
