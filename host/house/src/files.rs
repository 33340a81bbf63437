//! The files of a crate, and which of them know which.

use crate::paths::{declared, paths};
use crate::text::code;
use std::collections::{BTreeMap, BTreeSet};
use std::fs;
use std::path::Path;

/// A module's name: the words of its path, none for the crate's root.
type Name = Vec<String>;

/// Who knows whom, by the names of files.
pub type Files = BTreeMap<String, BTreeSet<String>>;

/// Reads the files of a folder `src`: each by its path there, and those that it knows.
pub fn files(src: &Path) -> Files {
    let mut sources = BTreeMap::new();
    collect(src, &mut Vec::new(), &mut sources);
    let names: BTreeMap<&Name, &str> = sources.iter().map(|(name, (path, _))| (name, path.as_str())).collect();
    let mut all = Files::new();
    for (name, (path, code)) in &sources {
        let (children, paths) = (declared(code), paths(code));
        let meant = paths.iter().filter_map(|path| meant(path, name, &children));
        let known = meant.map(|path| longest(&path, &names)).filter(|known| known != path).collect();
        all.insert(path.clone(), known);
    }
    all
}

/// The sources below a folder, by module. The crate's root is `lib.rs`, or `main.rs` where there is no `lib.rs`; beside
/// one, `main.rs` is a crate of its own.
fn collect(folder: &Path, stem: &mut Name, into: &mut BTreeMap<Name, (String, String)>) {
    let has_lib = folder.join("lib.rs").is_file();
    for entry in fs::read_dir(folder).unwrap().flatten() {
        let path = entry.path();
        let (file, bare) = (
            path.file_name().unwrap().to_string_lossy().into_owned(),
            path.file_stem().unwrap().to_string_lossy().into_owned(),
        );
        if path.is_dir() {
            stem.push(bare);
            collect(&path, stem, into);
            stem.pop();
        } else if file.ends_with(".rs") && !(stem.is_empty() && has_lib && file == "main.rs") {
            let is_root = stem.is_empty() && (file == "lib.rs" || file == "main.rs");
            let name = if is_root { Vec::new() } else { [&stem[..], &[bare]].concat() };
            let shown = [&stem[..], &[file]].concat().join("/");
            let code = code(&fs::read_to_string(&path).unwrap());
            // tests stand at a file's end, in a module of their own
            let code = code.split("#[cfg(test)]").next().unwrap().to_string();
            into.insert(name, (shown, code));
        }
    }
}

/// What a path in a module means, from the crate's root on; none where it leads out of the crate.
fn meant(path: &[String], here: &Name, children: &[String]) -> Option<Name> {
    match path[0].as_str() {
        "crate" => Some(path[1..].to_vec()),
        "self" => Some([&here[..], &path[1..]].concat()),
        "super" => {
            let ups = path.iter().take_while(|word| *word == "super").count();
            let up = here.len().checked_sub(ups)?;
            Some([&here[..up], &path[ups..]].concat())
        }
        first if children.iter().any(|child| child == first) => Some([&here[..], path].concat()),
        _ => None,
    }
}

/// The file of the longest beginning of a path that is a module.
fn longest(path: &[String], names: &BTreeMap<&Name, &str>) -> String {
    let mut name = path.to_vec();
    while !names.contains_key(&name) && !name.is_empty() {
        name.pop();
    }
    names[&name].to_string()
}

/// The same, folder by folder of the first floor: a folder and the file of its name are one.
pub fn folders(files: &Files) -> Files {
    let first = |name: &str| name.split('/').next().unwrap().trim_end_matches(".rs").to_string();
    let mut all = Files::new();
    for (name, known) in files {
        let known = known.iter().map(|known| first(known)).filter(|known| *known != first(name));
        all.entry(first(name)).or_default().extend(known);
    }
    all
}
