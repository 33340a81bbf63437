//! Source without what is not code: comments, strings and letters in quotes become blanks.

/// The code of a source file.
pub fn code(source: &str) -> String {
    let mut code = String::with_capacity(source.len());
    let mut rest = source;
    while let Some(next) = rest.chars().next() {
        let skipped = comment(rest).or_else(|| string(rest)).or_else(|| letter(rest));
        let len = skipped.unwrap_or(next.len_utf8());
        code.push_str(if skipped.is_some() { " " } else { &rest[..len] });
        rest = &rest[len..];
    }
    code
}

/// The length of a comment that begins here.
fn comment(rest: &str) -> Option<usize> {
    if rest.starts_with("//") {
        return Some(rest.find('\n').unwrap_or(rest.len()));
    }
    rest.starts_with("/*").then(|| rest.find("*/").map_or(rest.len(), |end| end + 2))
}

/// The length of a string that begins here, raw ones with up to one mark included.
fn string(rest: &str) -> Option<usize> {
    if let Some(raw) = rest.strip_prefix("r#\"") {
        return Some(3 + raw.find("\"#").map_or(raw.len(), |end| end + 2));
    }
    let inside = rest.strip_prefix('"')?;
    let mut escaped = false;
    let end = inside.find(|c| {
        let ends = c == '"' && !escaped;
        escaped = c == '\\' && !escaped;
        ends
    });
    Some(end.map_or(rest.len(), |end| end + 2))
}

/// The length of a letter in quotes that begins here; a lifetime is none.
fn letter(rest: &str) -> Option<usize> {
    let inside = rest.strip_prefix('\'')?;
    let len = match inside.strip_prefix('\\') {
        Some(escaped) => 1 + escaped.find('\'').filter(|end| *end > 0).unwrap_or(1),
        None => inside.chars().next()?.len_utf8(),
    };
    inside[len..].starts_with('\'').then_some(len + 2)
}

#[cfg(test)]
mod tests {
    use super::code;

    #[test]
    fn only_code_stays() {
        let source = "use crate::a; // crate::b\n/* crate::c */ let x = \"crate::d \\\" crate::e\"; let y: &'static str = r#\"crate::f\"#; '\"' crate::g '\\''";
        let code = code(source);
        for name in ["crate::a", "crate::g", "&'static str"] {
            assert!(code.contains(name), "{code}");
        }
        for name in ["crate::b", "crate::c", "crate::d", "crate::e", "crate::f"] {
            assert!(!code.contains(name), "{code}");
        }
    }
}
