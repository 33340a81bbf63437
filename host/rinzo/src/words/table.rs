//! The table of commands: their words, options and what they are for. Help, completions and the man page are made from
//! it; it knows nothing of what a command does.

/// An option: its name, the name of its value if it takes one, and its help.
pub struct Opt {
    pub name: &'static str,
    pub value: Option<&'static str>,
    pub help: &'static str,
}

/// What kind of command it is, in the order of the overview.
#[derive(Clone, Copy, Debug, PartialEq, Eq)]
pub enum Group {
    Look,
    Change,
    Make,
}

/// The groups with their headings.
pub const GROUPS: [(Group, &str); 3] = [
    (Group::Look, "look at a file"),
    (Group::Change, "change a file"),
    (Group::Make, "make a file, and what goes with the program"),
];

/// What is to be done.
#[derive(Clone, Copy, Debug, PartialEq, Eq)]
pub enum Verb {
    Blank,
    Check,
    Classes,
    Clear,
    Completion,
    Convert,
    Demo,
    Entry,
    Find,
    Install,
    Keep,
    List,
    Manual,
    Read,
    Save,
    Show,
    Sweep,
}

/// A command.
pub struct Command {
    pub name: &'static str,
    pub verb: Verb,
    pub group: Group,
    /// The words after its name; one in brackets may be left out, one with dots may come again.
    pub words: &'static [&'static str],
    pub summary: &'static str,
    /// What more there is to say, in paragraphs.
    pub details: &'static [&'static str],
    pub options: &'static [&'static [Opt]],
}

const fn opt(name: &'static str, value: &'static str, help: &'static str) -> Opt {
    Opt { name, value: Some(value), help }
}

const fn flag(name: &'static str, help: &'static str) -> Opt {
    Opt { name, value: None, help }
}

/// Every command takes these.
pub static COMMON: [Opt; 2] = [flag("json", "print JSON, one object a line"), flag("help", "print this")];

const SIZES: [Opt; 6] = [
    opt("n", "N", "records of bootstrap and index, 2 to 513 (default: enough for 1024 slots)"),
    opt("l", "L", "bytes per record, 512 to 4096 (default: 4096 where that is the device's sector, else 512)"),
    opt("m", "M", "bytes per index entry, 64 to L, divides L (default 64)"),
    opt("room", "R", "records in all, N included; the file's length, at most 1000000 (default 8192)"),
    opt("sector", "BYTES", "the device's sector (default: what the system says)"),
    flag("force", "blank a file that has bytes; its scans are lost"),
];

const BYTES: [Opt; 2] = [
    opt("out", "FILE", "write to this new file (default: standard output, if it is no terminal)"),
    flag("force", "let --out overwrite a file"),
];

/// The entry's bytes 8 to 61, by field or as a whole.
const ABOUT: [Opt; 14] = [
    opt("source", "NAME", "source name, up to 16 bytes, blanks follow; or all 16 as 0x and 32 digits"),
    opt("scan-number", "X", "scan number"),
    opt("horizontal", "X", "horizontal coordinate"),
    opt("vertical", "X", "vertical coordinate"),
    opt("resolution", "X", "spectral line: frequency resolution"),
    opt("rest", "X", "spectral line: rest frequency in MHz"),
    opt("rate", "X", "continuum: slew rate"),
    opt("integration", "X", "continuum: integration time"),
    opt("lst", "X", "LST"),
    opt("date", "X", "UT date"),
    opt("mode", "I", "256 to 304 continuum, 512 to 560 spectral line"),
    opt("number", "I", "record x 64 + phase"),
    opt("position", "I", "position code"),
    opt("about", "FILE", "all of these at once: a file of 54 bytes, the entry's bytes 8 to 61"),
];

const ABOUT_DETAILS: &str =
    "SCAN is a file with the scan's bytes, or - for standard input. What is not given of the entry is zeros.
X is a number, or the bits of one in hexadecimal with all their digits, as 0x7fc00001.";

const SAVE_DETAILS: &str = "A save that did not say `saved` is done again, to the same slot.";

/// Of every command that changes a file.
const OLD_DETAILS: &str = "A file of the old form, from before 1993, is not changed: it is refused with 2.
`rinzo convert` makes a second file of it that can be.";

const KEEP_DETAILS: &str =
    "A keep that did not say `saved`: list the file first. Where the scan is listed, save it to that slot;
to keep it again would put it into two slots, so a scan that the file has already needs --again.";

const CLEAR_DETAILS: &str =
    "A clear that did not say `cleared`: list the file first. Where the slot is listed, clear it again; where it is
not, it is empty, and the next save or clear sets the used number right.";

/// Of what is done to the scan that a slot had.
const ZEROS_DETAILS: &str =
    "At its end the records of the scan that the slot had become zeros. After a cut some may be left: `rinzo check`
says so, no later job zeroes them, and `rinzo sweep` makes a copy of the file without them.";

const USED_DETAILS: &str =
    "After a cut the used number may be higher than the highest slot with a scan. Then a line says so; it is no
damage, and the next save or clear sets it right.";

/// Of what `check` says of the gaps.
const GAPS_DETAILS: &str =
    "Jobs that were confirmed leave zeros in data records that belong to no scan. Where some are not zeros, a line
says how many; it is no damage, but what they hold can be read. `rinzo sweep` makes a copy without it.";

/// Of the file that `check` judges as it comes.
const STREAM_DETAILS: &str =
    "With - for FILE, standard input is judged as it comes, to its end and in little memory: the verdict is the whole
file's, but scans are not counted or read, nor records of no scan looked into. Its length has to be known before its
bytes: it is a plain file's own (rinzo check - <FILE), and --length N gives it of a pipe. Where fewer bytes come, the
verdict stands if bootstrap and index are among them, else it is 20; what comes beyond them is not looked at.";

/// What goes with `check`.
const CHECK: [Opt; 2] = [
    flag("scans", "read every scan too, and list each that breaks a rule; status 11 where one does"),
    opt("length", "N", "of standard input: how many bytes the file has"),
];

/// Of every command that reads a scan.
const READ_DETAILS: &str =
    "A scan that an old file says is not SDD version 1 is refused with 18; `rinzo show` writes its records out.";

/// The shells that `completion` knows: the word SHELL.
pub const SHELLS: [&str; 3] = ["bash", "zsh", "fish"];

/// The forms that a file is converted to: the value FORM.
pub const FORMS: [&str; 2] = ["old", "current"];

const CONVERT: [Opt; 3] = [
    opt("to", "FORM", "the form that it is to have: old or current"),
    opt("out", "FILE", "the new file; never FILE itself"),
    flag("force", "let --out replace a file"),
];

const CONVERT_DETAILS: &str =
    "Bootstrap and index are written in the other form; the scans are the same bytes. FILE stays as it is.
The new file has its name only once it was read back, opens, and shows the same list, entries and scans.";

const SWEEP_DETAILS: &str =
    "Data records that belong to no scan become zeros; all else is the same bytes, and FILE stays as it is.
The new file has its name only once it was read back, opens, and shows the same list, entries and scans.";

const LEFT_DETAILS: &str =
    "What was left there is of a scan that was replaced or cleared, or of a save that was cut; no later job zeroes
it, and `rinzo check` says whether there is any. Files of both forms are swept.";

/// What `find` needs, and what it does not look at.
const FIND_DETAILS: &str =
    "For a file whose index is lost: it needs a good record 1, and reads no index. A scan is found by its own bytes, where
they obey the rules; printed are its first and last record, its length and its number. FILE, of either form, stays as it is.";

/// Why `find` may show more, or less, than the list did.
const MORE_DETAILS: &str =
    "More may be found than the list showed: a scan that was replaced, cleared or cut off, and whose bytes are left in
records of no scan. Two with one number may be an old and a new one. A scan whose beginning is damaged is not found.
A file that opens is better read with `rinzo list`.";

/// How a scan that was found gets into a slot.
const FOUND_DETAILS: &str =
    "To have the scans in a file again: `rinzo find FILE --out DIR`, `rinzo blank NEW`, and for each that you want
`rinzo keep NEW DIR/FIRST.scan`. Source, mode and all else that the index said are lost with it: give them to keep.";

const FIND: [Opt; 1] = [opt("out", "DIR", "write each scan to a new file DIR/FIRST.scan; a file that is there stays")];

/// Of what cannot be converted.
const NOT_CONVERTED_DETAILS: &str =
    "Refused with 19: a file that has the form already, that holds individual records, that has a scan which is
not SDD version 1, or a number too large for the old form. The sentence says which it is.";

/// All commands, in the order of the overview.
pub static COMMANDS: [Command; 17] = [
    Command {
        name: "list",
        verb: Verb::List,
        group: Group::Look,
        words: &["FILE..."],
        summary: "list the scans: slot, first and last record",
        details: &[],
        options: &[&[flag("long", "add each scan's bytes, kind and source")]],
    },
    Command {
        name: "check",
        verb: Verb::Check,
        group: Group::Look,
        words: &["FILE..."],
        summary: "judge a file: its form, index and sizes, and with --scans its scans",
        details: &[
            "Scans that an old file says are not SDD version 1 are listed, and are no damage.",
            USED_DETAILS,
            GAPS_DETAILS,
            STREAM_DETAILS,
        ],
        options: &[&CHECK],
    },
    Command {
        name: "entry",
        verb: Verb::Entry,
        group: Group::Look,
        words: &["FILE", "SLOT"],
        summary: "print the index entry of a slot",
        details: &["An old file's entry has a magic number too: 1 IEEE KEEP, 2 SDD version 1."],
        options: &[],
    },
    Command {
        name: "classes",
        verb: Verb::Classes,
        group: Group::Look,
        words: &["FILE", "SLOT"],
        summary: "list the classes and the data of a slot's scan: from and to byte, and length",
        details: &[READ_DETAILS],
        options: &[],
    },
    Command {
        name: "show",
        verb: Verb::Show,
        group: Group::Look,
        words: &["FILE", "SLOT"],
        summary: "write out a slot's records, padding included",
        details: &[],
        options: &[&BYTES],
    },
    Command {
        name: "read",
        verb: Verb::Read,
        group: Group::Look,
        words: &["FILE", "SLOT"],
        summary: "write out a slot's scan",
        details: &[READ_DETAILS],
        options: &[&BYTES],
    },
    Command {
        name: "find",
        verb: Verb::Find,
        group: Group::Look,
        words: &["FILE"],
        summary: "find scans in the data records, where the index is lost",
        details: &[FIND_DETAILS, MORE_DETAILS, FOUND_DETAILS],
        options: &[&FIND],
    },
    Command {
        name: "save",
        verb: Verb::Save,
        group: Group::Change,
        words: &["FILE", "SLOT", "SCAN"],
        summary: "save a scan to a slot; over another scan only with --replace",
        details: &[SAVE_DETAILS, ZEROS_DETAILS, OLD_DETAILS, ABOUT_DETAILS],
        options: &[&[flag("replace", "lose the scan that the slot has")], &ABOUT],
    },
    Command {
        name: "keep",
        verb: Verb::Keep,
        group: Group::Change,
        words: &["FILE", "SCAN"],
        summary: "save a scan to the lowest empty slot",
        details: &[KEEP_DETAILS, OLD_DETAILS, ABOUT_DETAILS],
        options: &[&[flag("again", "keep a scan that the file has already")], &ABOUT],
    },
    Command {
        name: "clear",
        verb: Verb::Clear,
        group: Group::Change,
        words: &["FILE", "SLOT"],
        summary: "empty a slot, after a question",
        details: &[
            "Where standard input is no terminal nobody can be asked, and --yes has to be given.",
            CLEAR_DETAILS,
            ZEROS_DETAILS,
            OLD_DETAILS,
        ],
        options: &[&[flag("yes", "clear the slot without a question")]],
    },
    Command {
        name: "blank",
        verb: Verb::Blank,
        group: Group::Make,
        words: &["FILE"],
        summary: "make a file without scans",
        details: &[
            "A file that has bytes is refused unless --force is given. It is never made shorter, and gets the current form.",
        ],
        options: &[&SIZES],
    },
    Command {
        name: "convert",
        verb: Verb::Convert,
        group: Group::Make,
        words: &["FILE"],
        summary: "make a second file of the old or the current form, --to FORM --out FILE",
        details: &[CONVERT_DETAILS, NOT_CONVERTED_DETAILS],
        options: &[&CONVERT],
    },
    Command {
        name: "sweep",
        verb: Verb::Sweep,
        group: Group::Make,
        words: &["FILE", "NEW"],
        summary: "make a second file, without what is left in records that belong to no scan",
        details: &[SWEEP_DETAILS, LEFT_DETAILS],
        options: &[&[flag("force", "let NEW replace a file")]],
    },
    Command {
        name: "demo",
        verb: Verb::Demo,
        group: Group::Make,
        words: &["[FILE]"],
        summary: "show a whole wash job: a blank file, a before scan, an after scan, the list",
        details: &["Without FILE it works on a file of its own, which it removes; FILE is made anew and stays."],
        options: &[],
    },
    Command {
        name: "install",
        verb: Verb::Install,
        group: Group::Make,
        words: &["DIR"],
        summary: "put the program, its man page and its completions into a folder",
        details: &[
            "They go to DIR/bin, DIR/share/man and where bash, zsh and fish look in DIR/share. The program works alone.",
        ],
        options: &[],
    },
    Command {
        name: "completion",
        verb: Verb::Completion,
        group: Group::Make,
        words: &["SHELL"],
        summary: "print what makes a shell complete these words: bash, zsh or fish",
        details: &["bash: put it into a file that your ~/.bashrc reads. zsh: into a file _rinzo in a folder of $fpath.
fish: into ~/.config/fish/completions/rinzo.fish."],
        options: &[],
    },
    Command {
        name: "manual",
        verb: Verb::Manual,
        group: Group::Make,
        words: &[],
        summary: "print the man page",
        details: &["To read it: rinzo manual >rinzo.1; man ./rinzo.1"],
        options: &[],
    },
];

/// The command of this name.
pub fn find(name: &str) -> Option<&'static Command> {
    COMMANDS.iter().find(|command| command.name == name)
}

/// The words that can stand for a word or a value, by its name in the table, where they are few.
pub fn choices(name: &str) -> Option<&'static [&'static str]> {
    match name {
        "SHELL" => Some(&SHELLS),
        "FORM" => Some(&FORMS),
        _ => None,
    }
}

/// Whether a word or a value, by its name in the table, is a file's.
pub fn is_file(name: &str) -> bool {
    matches!(name.trim_matches(['[', ']', '.']), "FILE" | "NEW" | "SCAN" | "DIR")
}

/// What ends a run: the status, and when.
pub const STATUSES: [(&str, &str); 9] = [
    ("0", "done"),
    ("1 to 20", "refused with this number"),
    ("64", "bad usage"),
    ("66", "no such file"),
    ("73", "something would be lost or doubled (the sentence names the option that does it)"),
    ("74", "reading or writing failed"),
    ("75", "another program works on the file"),
    ("77", "not permitted"),
    ("130", "interrupted; a job under way is dropped"),
];

impl Command {
    /// Its name and words.
    pub fn usage(&self) -> String {
        [&[self.name], self.words].concat().join(" ")
    }

    /// The options that are its own.
    pub fn own_options(&self) -> impl Iterator<Item = &'static Opt> {
        self.options.iter().copied().flatten()
    }

    /// Its options, common ones included.
    pub fn all_options(&self) -> impl Iterator<Item = &'static Opt> {
        self.own_options().chain(&COMMON)
    }
}

impl Opt {
    /// As it is written: `--name VALUE`.
    pub fn usage(&self) -> String {
        match self.value {
            Some(value) => format!("--{} {value}", self.name),
            None => format!("--{}", self.name),
        }
    }
}
