//! The completions are accepted by the shells that they are for and do complete; the man page is one.

mod common;

use common::{folder, wrote};
use std::path::Path;
use std::process::{Command, Output};

/// Runs a program that has to be there, and that is ended where a minute is not enough for it.
fn program(name: &str, package: &str, folder: &Path, words: &[&str]) -> Output {
    let mut command = Command::new("timeout");
    command.args(["--kill-after=5", "60", name]).args(words).current_dir(folder).env("HOME", folder);
    let output = command.output().unwrap();
    assert!(
        output.status.code() != Some(127),
        "{name} is needed to try the completions: install the package {package} ({})",
        String::from_utf8_lossy(&output.stderr)
    );
    output
}

/// What it printed, where it ended well and complained of nothing.
fn printed(name: &str, package: &str, folder: &Path, words: &[&str]) -> String {
    let output = program(name, package, folder, words);
    let said = String::from_utf8_lossy(&output.stderr);
    assert!(output.status.success() && said.is_empty(), "{name} {words:?}: {said}");
    String::from_utf8(output.stdout).unwrap()
}

/// Writes the completions for a shell into a file of the folder.
fn completions(folder: &Path, shell: &str, file: &str) {
    std::fs::write(folder.join(file), wrote(folder, &["completion", shell])).unwrap();
}

#[test]
fn bash_completes() {
    let folder = folder("bash");
    completions(&folder, "bash", "c");
    printed("bash", "bash", &folder, &["-n", "c"]);
    // `compopt` works only while bash itself completes
    let ask = |line: &str| {
        let script = format!(
            "compopt() {{ :; }}; . ./c; COMP_WORDS=({line}); COMP_CWORD=$((${{#COMP_WORDS[@]}} - 1)); _rinzo; echo \"${{COMPREPLY[*]}}\"; complete -p rinzo"
        );
        let said = printed("bash", "bash", &folder, &["--norc", "-c", &script]);
        let (reply, registered) = said.split_once('\n').unwrap();
        assert_eq!(registered.trim(), "complete -o default -F _rinzo rinzo");
        reply.to_string()
    };
    assert_eq!(ask("rinzo sa"), "save");
    assert_eq!(ask("rinzo c"), "check classes clear convert completion");
    assert_eq!(ask("rinzo convert f.sdd --to ''"), "old current");
    assert_eq!(ask("rinzo convert f.sdd --to c"), "current");
    assert_eq!(ask("rinzo list --l"), "--long");
    assert_eq!(ask("rinzo check - --l"), "--length");
    assert_eq!(ask("rinzo check - --length ''"), "");
    assert_eq!(ask("rinzo blank f.sdd --n ''"), "");
    assert_eq!(ask("rinzo list ''"), "");
    assert_eq!(ask("rinzo completion ''"), "bash zsh fish");
    assert_eq!(ask("rinzo completion f"), "fish");
    assert_eq!(ask("rinzo help k"), "keep");
    assert!(ask("rinzo save f.sdd 1 scan --").contains("--scan-number"));
}

#[test]
fn zsh_completes() {
    let folder = folder("zsh");
    completions(&folder, "zsh", "_rinzo");
    printed("zsh", "zsh", &folder, &["-n", "_rinzo"]);
    // a shell of its own on a terminal, which is sent a line and a TAB, and has to come up with the rest of the word
    let ask = |line: &str, word: &str| {
        let script = format!(
            "zmodload zsh/zpty; zpty shell zsh -f -i
             zpty -w shell \"PS1='<>'; fpath=($PWD \\$fpath); autoload -U compinit; compinit -u -d $PWD/dump; print rea''dy\"
             zpty -r -m shell said '*ready*<>*'
             zpty -n -w shell '{line}'$'\\t'
             zpty -r -m shell said '*{word}*'
             zpty -d shell"
        );
        printed("zsh", "zsh", &folder, &["-f", "-c", &script]);
    };
    ask("rinzo sa", "save");
    ask("rinzo list --lo", "--long");
    ask("rinzo completion f", "fish");
    ask("rinzo convert f.sdd --to c", "current");
    ask("rinzo list _r", "_rinzo");
    let sourced = "autoload -U compinit; compinit -u -d $PWD/dump2; . ./_rinzo; print $_comps[rinzo]";
    assert_eq!(printed("zsh", "zsh", &folder, &["-f", "-c", sourced]), "_rinzo\n");
}

#[test]
fn fish_completes() {
    let folder = folder("fish");
    completions(&folder, "fish", "c.fish");
    printed("fish", "fish", &folder, &["--no-execute", "c.fish"]);
    let ask = |line: &str| {
        printed("fish", "fish", &folder, &["--no-config", "-c", &format!("source c.fish; complete -C '{line}'")])
    };
    assert_eq!(ask("rinzo sa"), "save\tsave a scan to a slot; over another scan only with --replace\n");
    assert_eq!(ask("rinzo list --lo"), "--long\tadd each scan's bytes, kind and source\n");
    assert_eq!(ask("rinzo completion z"), "zsh\n");
    assert!(ask("rinzo convert f.sdd --to ").starts_with("current\t"));
    assert!(ask("rinzo list c.").contains("c.fish"));
    assert!(!ask("rinzo ").contains("c.fish"));
}

#[test]
fn every_command_and_option_is_completed_and_in_the_man_page() {
    let folder = folder("from_the_table");
    let texts =
        [["completion", "bash"], ["completion", "zsh"], ["completion", "fish"]].map(|words| wrote(&folder, &words));
    let manual = wrote(&folder, &["manual"]);
    let overview = wrote(&folder, &["--help"]);
    let commands: Vec<&str> = overview.lines().filter_map(|line| line.strip_prefix("  ")?.split(' ').next()).collect();
    assert_eq!(commands.len(), 17, "{commands:?}");
    for command in commands {
        assert!(texts.iter().all(|text| text.contains(command)), "{command}");
        assert!(manual.contains(&format!(".SS \\fB{command}\\fR")), "{command}");
        let help = wrote(&folder, &[command, "--help"]);
        for option in help.lines().filter_map(|line| line.strip_prefix("  --")?.split(' ').next()) {
            assert!(texts[..2].iter().all(|text| text.contains(&format!("--{option}"))), "{command} --{option}");
            assert!(texts[2].contains(&format!("-l {option}")), "{command} --{option}");
            assert!(manual.contains(&format!("\\-\\-{}\\fR", option.replace('-', "\\-"))), "{command} --{option}");
        }
    }
}

#[test]
fn the_man_page_is_one() {
    let folder = folder("manual");
    std::fs::write(folder.join("rinzo.1"), wrote(&folder, &["manual"])).unwrap();
    let page = plain(&printed("groff", "groff-base", &folder, &["-man", "-Tascii", "-ww", "-P-c", "rinzo.1"]));
    for part in ["NAME", "rinzo - SDD files", "TO LOOK AT A FILE", "save FILE SLOT SCAN", "--scan-number X", "130"] {
        assert!(page.contains(part), "{part} is not in\n{page}");
    }
}

/// A page without what a printer strikes over: a letter, a step back and a letter.
fn plain(page: &str) -> String {
    let mut plain = String::new();
    for c in page.chars() {
        if c == '\u{8}' {
            plain.pop();
        } else {
            plain.push(c);
        }
    }
    plain
}
