//! Must-fail edits fit the code: what an edit replaces stands there once, and
//! `docs/EDITS.md` lists it. The gate would say so too, half an hour later.

use std::collections::BTreeMap;
use std::fs;
use std::path::{Path, PathBuf};

fn root() -> PathBuf {
    Path::new(env!("CARGO_MANIFEST_DIR")).join("..")
}

fn text(path: &Path) -> String {
    fs::read_to_string(path).unwrap_or_else(|e| panic!("{}: {e}", path.display()))
}

/// The edits of all crates, each with its crate's folder.
fn edits() -> Vec<(PathBuf, PathBuf)> {
    let mut found = Vec::new();
    for entry in fs::read_dir(root().join("crates")).expect("the crates") {
        let folder = entry.expect("a crate").path();
        let Ok(edits) = fs::read_dir(folder.join("must-fail")) else {
            continue;
        };
        for edit in edits {
            found.push((folder.clone(), edit.expect("an edit").path()));
        }
    }
    found.sort();
    found
}

/// Makes an edit's changes in order, or says which text does not stand once.
fn changed(folder: &Path, edit: &str) -> Result<BTreeMap<PathBuf, String>, String> {
    let mut files = BTreeMap::new();
    let (mut file, mut old) = (PathBuf::new(), "");
    for line in edit.lines() {
        if let Some(name) = line.strip_prefix("file: ") {
            file = folder.join(name);
            files.entry(file.clone()).or_insert_with(|| text(&file));
        } else if let Some(replaced) = line.strip_prefix("old: ") {
            old = replaced;
        } else if let Some(new) = line.strip_prefix("new:") {
            let code = files.get_mut(&file).ok_or("no file is named")?;
            match code.matches(old).count() {
                1 => *code = code.replace(old, new.strip_prefix(' ').unwrap_or(new)),
                count => return Err(format!("{count} times: {old}")),
            }
        }
    }
    Ok(files)
}

#[test]
fn what_an_edit_replaces_stands_once() {
    let edits = edits();
    assert!(edits.len() > 30, "only {} edits", edits.len());
    let wrong: Vec<_> = edits
        .iter()
        .filter_map(|(folder, path)| {
            let error = changed(folder, &text(path)).err()?;
            Some(format!("{}: {error}", path.display()))
        })
        .collect();
    assert!(wrong.is_empty(), "{}", wrong.join("\n"));
}

#[test]
fn a_text_that_is_not_there_is_seen() {
    let folder = root().join("crates/sheet");
    let edit = |old| format!("Wrong.\nfile: src/lib.rt\nold: {old}\nnew: pub mod other;\n");
    assert!(changed(&folder, &edit("pub mod check;")).is_ok());
    assert!(changed(&folder, &edit("pub mod never;")).is_err());
    assert!(changed(&folder, &edit("pub mod")).is_err());
}

#[test]
fn every_kept_edit_is_listed() {
    let page = text(&root().join("docs/EDITS.md"));
    let (kept, _) = page.split_once("## Tried").expect("the list of kept edits");
    for (folder, path) in edits() {
        let name = |path: &Path| path.file_stem().expect("a name").display().to_string();
        let row = format!("| {} | `{}` |", name(&folder), name(&path));
        assert!(kept.contains(&row), "{row}");
    }
    let rows = kept.lines().filter(|line| line.contains(" | `")).count();
    assert_eq!(rows, edits().len());
}
