//! A ring among those who know each other.

use crate::files::Files;

/// Some that know each other in a ring, each the next and the last the first; none where there is no ring.
pub fn ring(files: &Files) -> Option<Vec<String>> {
    let mut done = Vec::new();
    files.keys().find_map(|name| from(name, files, &mut Vec::new(), &mut done))
}

/// A ring that can be reached from here, by way of those on the path.
fn from(name: &String, files: &Files, path: &mut Vec<String>, done: &mut Vec<String>) -> Option<Vec<String>> {
    if let Some(at) = path.iter().position(|before| before == name) {
        return Some(path[at..].to_vec());
    }
    if done.contains(name) {
        return None;
    }
    path.push(name.clone());
    let found = files[name].iter().find_map(|known| from(known, files, path, done));
    path.pop();
    done.push(name.clone());
    found
}
