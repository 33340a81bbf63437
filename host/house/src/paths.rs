//! The paths of a piece of code, `use` trees taken apart.

/// A path, word by word.
pub type Path = Vec<String>;

/// The words and marks of code: names, `::`, and single marks.
fn tokens(code: &str) -> Vec<&str> {
    let is_name = |c: char| c.is_alphanumeric() || c == '_';
    let mut tokens = Vec::new();
    let mut rest = code.trim_start();
    while let Some(first) = rest.chars().next() {
        let len = if is_name(first) {
            rest.find(|c| !is_name(c)).unwrap_or(rest.len())
        } else if rest.starts_with("::") {
            2
        } else {
            first.len_utf8()
        };
        tokens.push(&rest[..len]);
        rest = rest[len..].trim_start();
    }
    tokens
}

fn is_name(token: &str) -> bool {
    token.starts_with(|c: char| c.is_alphabetic() || c == '_')
}

/// Every path of two words or more, and every word of a `use`.
pub fn paths(code: &str) -> Vec<Path> {
    let tokens = tokens(code);
    let mut found = Vec::new();
    let mut at = 0;
    while at < tokens.len() {
        let in_use = tokens[at] == "use";
        at += usize::from(in_use);
        let begins = tokens.get(at).is_some_and(|token| is_name(token) || (in_use && *token == "{"));
        if !begins {
            at += usize::from(!in_use);
            continue;
        }
        let before = found.len();
        at = tree(&tokens, at, &Vec::new(), &mut found);
        if !in_use {
            let long: Vec<Path> = found.drain(before..).filter(|path| path.len() > 1).collect();
            found.extend(long);
        }
    }
    found
}

/// Takes a tree of paths apart, `a::{b, c::d}` into `a::b` and `a::c::d`; answers where it ends.
fn tree(tokens: &[&str], mut at: usize, stem: &Path, found: &mut Vec<Path>) -> usize {
    let mut path = stem.clone();
    while let Some(token) = tokens.get(at) {
        match *token {
            "{" => return branches(tokens, at + 1, &path, found),
            name if is_name(name) => path.push(name.to_string()),
            _ => return at,
        }
        at += 1;
        if tokens.get(at) != Some(&"::") {
            found.push(path);
            return at;
        }
        at += 1;
    }
    at
}

/// The branches of a tree, up to the brace that closes it.
fn branches(tokens: &[&str], mut at: usize, stem: &Path, found: &mut Vec<Path>) -> usize {
    while let Some(token) = tokens.get(at) {
        match *token {
            "}" => return at + 1,
            "self" => {
                found.push(stem.clone());
                at += 1;
            }
            name if is_name(name) => at = tree(tokens, at, stem, found),
            _ => at += 1,
        }
    }
    at
}

/// The modules that code declares in files of their own: `mod x;`.
pub fn declared(code: &str) -> Vec<String> {
    let tokens = tokens(code);
    let named = tokens.windows(3).filter(|three| three[0] == "mod" && three[2] == ";");
    named.map(|three| three[1].to_string()).collect()
}

#[cfg(test)]
mod tests {
    use super::{declared, paths};

    #[test]
    fn trees_are_taken_apart() {
        let all = |code| paths(code).into_iter().map(|path| path.join("::")).collect::<Vec<_>>();
        assert_eq!(all("use crate::a::{self, b::C, d};"), ["crate::a", "crate::a::b::C", "crate::a::d"]);
        assert_eq!(all("use super::{files, jobs};"), ["super::files", "super::jobs"]);
        assert_eq!(all("fn f(x: crate::a::B) -> u32 { c::d(x) + e }"), ["crate::a::B", "c::d"]);
        assert_eq!(
            all("pub use wrong::{Wrong, wrong_lines}; use face;"),
            ["wrong::Wrong", "wrong::wrong_lines", "face"]
        );
        assert_eq!(declared("mod a; pub mod b; mod tests { }"), ["a", "b"]);
    }
}
