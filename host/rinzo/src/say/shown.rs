//! Names that come from outside, as a person may see them: nothing in them is a command to the terminal.

use std::os::unix::ffi::OsStrExt;
use std::path::Path;

/// Whether a letter does something else than to be seen: controls, C1 among them, and what turns the direction of writing.
pub fn is_hidden(letter: char) -> bool {
    letter.is_control() || matches!(letter, '\u{200e}'..='\u{200f}' | '\u{2028}'..='\u{202e}' | '\u{2066}'..='\u{2069}')
}

/// Puts a letter, or the escape for one that is hidden.
fn put(text: &mut String, letter: char) {
    if is_hidden(letter) { text.extend(letter.escape_unicode()) } else { text.push(letter) }
}

/// A file's name in a sentence; bytes that are no text stand there in hexadecimal.
pub fn name(path: &Path) -> String {
    let mut text = String::new();
    for part in path.as_os_str().as_bytes().utf8_chunks() {
        part.valid().chars().for_each(|letter| put(&mut text, letter));
        text.extend(part.invalid().iter().map(|byte| format!("\\x{byte:02x}")));
    }
    text
}

/// Whether a name stands for standard input, where a command takes that.
pub fn is_input(path: &Path) -> bool {
    path == Path::new("-")
}

/// Lines of which some words may be somebody else's; the lines stay lines.
pub fn lines(text: &str) -> String {
    let mut shown = String::with_capacity(text.len());
    for letter in text.chars() {
        if letter == '\n' { shown.push(letter) } else { put(&mut shown, letter) }
    }
    shown
}

/// A source name: without the blanks or zeros at its end, and with anything else that cannot be printed as a dot.
pub fn source(source: &[u8; 16]) -> String {
    let end = source.iter().rposition(|byte| *byte != b' ' && *byte != 0).map_or(0, |at| at + 1);
    let letter = |byte: &u8| if (b' '..=b'~').contains(byte) { *byte as char } else { '.' };
    source[..end].iter().map(letter).collect()
}

#[cfg(test)]
mod tests {
    use super::{lines, name, source};
    use std::ffi::OsStr;
    use std::os::unix::ffi::OsStrExt;
    use std::path::Path;

    #[test]
    fn nothing_in_a_name_moves_a_terminal() {
        let bytes = b"a\x1b[31m\xc2\x9b2J\n\t\x7f\xff\xe2\x80\xae\xc3\xa9";
        let shown = name(Path::new(OsStr::from_bytes(bytes)));
        assert_eq!(shown, "a\\u{1b}[31m\\u{9b}2J\\u{a}\\u{9}\\u{7f}\\xff\\u{202e}\u{e9}");
        assert_eq!(lines("one\ntwo\x1b\r"), "one\ntwo\\u{1b}\\u{d}");
    }

    #[test]
    fn a_source_is_shown_without_its_end() {
        assert_eq!(source(b"ORION           "), "ORION");
        assert_eq!(source(&[0; 16]), "");
        assert_eq!(source(b"A\x01\0B\x9b           "), "A..B.");
    }
}
