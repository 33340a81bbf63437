//! What makes a shell complete the words of the command line, made from the table.

mod bash;
mod fish;
mod zsh;

/// The lines for a shell; none for one that is not known.
pub fn of(shell: &str) -> Option<String> {
    match shell {
        "bash" => Some(bash::lines()),
        "zsh" => Some(zsh::lines()),
        "fish" => Some(fish::lines()),
        _ => None,
    }
}
