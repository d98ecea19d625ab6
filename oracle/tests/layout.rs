//! The layout of a crate's `specs/` shows what a reader must believe: a file
//! beside `Lib.antt` holds definitions, and imports files of definitions alone,
//! so that nothing of a promise, an example or a law hides in what is believed.
//! Some of them state what is proved, and no contract reaches those.
//! `docs/TRUST.md` lists the files that the operations' contracts reach.

use std::collections::{BTreeMap, BTreeSet};
use std::fs;
use std::path::{Path, PathBuf};

/// Folders of `specs/` that hold no definition to be believed.
const BESIDE: [&str; 3] = ["Promises", "Examples", "Laws"];

/// Files of `specs/` that state what is proved, or what was before, to compare with.
const STATED: [&str; 4] = ["Demands", "InnerCalls", "RustOrder", "WithNine"];

/// The operations: crate, file and function.
const OPERATIONS: [(&str, &str, &str); 5] = [
    ("polynomial", "operation", "roots"),
    ("sheet", "sample", "sample"),
    ("sheet", "check", "check"),
    ("page", "page", "page_text"),
    ("page", "decimal", "decimal_text"),
];

fn root() -> PathBuf {
    Path::new(env!("CARGO_MANIFEST_DIR")).join("..")
}

fn text(path: &Path) -> String {
    fs::read_to_string(path).unwrap_or_else(|e| panic!("{}: {e}", path.display()))
}

/// The files of definitions: those in `specs/` itself but for its root and the folders' roots.
fn definitions() -> Vec<PathBuf> {
    let mut found = Vec::new();
    for entry in fs::read_dir(root().join("crates")).expect("the crates") {
        let Ok(specs) = fs::read_dir(entry.expect("a crate").path().join("specs")) else {
            continue;
        };
        for file in specs {
            let path = file.expect("a file").path();
            let name = name(&path);
            let folder = name == "Lib" || BESIDE.contains(&name.as_str());
            if path.extension().is_some_and(|e| e == "antt") && !folder {
                found.push(path);
            }
        }
    }
    found.sort();
    found
}

/// The name of a file.
fn name(file: &Path) -> String {
    file.file_stem().expect("a name").display().to_string()
}

/// The folders that a file of `specs/` imports nothing from. A statement may have
/// words of promises, such as what holds of every element.
fn shut(file: &Path) -> &'static [&'static str] {
    match STATED.contains(&name(file).as_str()) {
        true => &BESIDE[1..],
        false => &BESIDE,
    }
}

/// What a line imports, if it is an import: what follows `use`.
fn import(line: &str) -> Option<&str> {
    let line = line.trim_start();
    line.strip_prefix("pub ")
        .unwrap_or(line)
        .strip_prefix("use ")
}

/// Whether a line imports from one of these folders of `specs/`, or from a crate's `proofs/`.
/// The library's `Rattle.std.proofs` has definitions of its own.
fn leaves(line: &str, folders: &[&str]) -> bool {
    let Some(path) = import(line) else {
        return false;
    };
    let std = path.starts_with("Rattle.std.");
    folders
        .iter()
        .any(|folder| path.contains(&format!(".specs.{folder}.")))
        || (path.contains(".proofs.") && !std)
}

#[test]
fn definitions_import_definitions_alone() {
    let files = definitions();
    assert!(
        files.len() > 30,
        "only {} files of definitions",
        files.len()
    );
    let mut wrong = Vec::new();
    for file in &files {
        for line in text(file).lines().filter(|line| leaves(line, shut(file))) {
            wrong.push(format!("{}: {line}", file.display()));
        }
    }
    assert!(wrong.is_empty(), "{}", wrong.join("\n"));
}

#[test]
fn an_import_from_a_law_is_seen() {
    let [pose, demands] = ["Pose", "Demands"].map(|name| shut(Path::new(name)));
    let law = "use Rattle.float.specs.Laws.Within.{Within}";
    assert!(leaves(law, pose) && leaves(law, demands));
    let again = "pub use Rattle.float.specs.Laws.Within.{Within}";
    assert!(leaves(again, pose) && leaves(again, demands));
    let promise = "use Rattle.sampling.specs.Promises.Plan as Plan";
    assert!(leaves(promise, pose) && !leaves(promise, demands));
    let proof = "use Rattle.float.proofs.Pattern.{sign}";
    assert!(leaves(proof, pose) && leaves(proof, demands));
    assert!(!leaves("use Rattle.float.specs.Number.{abs}", pose));
    assert!(!leaves("use Rattle.std.proofs.Common.{sym}", pose));
}

/// The crate and the file's name, for an import of another file of `specs/`; none for the types that
/// the code declares, and for the libraries of the logic and of the language.
fn imported(path: &str) -> Option<(String, String)> {
    let (name, rest) = path.strip_prefix("Rattle.")?.split_once('.')?;
    if name == "std" {
        return None;
    }
    let rest = rest
        .strip_prefix("specs.")
        .unwrap_or_else(|| panic!("{path} is not of specs/"));
    let file = rest.split([' ', '{', ';']).next()?.trim_end_matches('.');
    let file = file.replace('.', "/");
    let declared = file.starts_with("declared");
    (!declared).then(|| (name.to_string(), file))
}

#[test]
fn an_import_is_read() {
    let found = |crate_: &str, file: &str| Some((crate_.to_string(), file.to_string()));
    let number = imported("Rattle.float.specs.Number.{abs}");
    assert_eq!(number, found("float", "Number"));
    let plan = imported("Rattle.sheet.specs.Promises.Plan as Promise;");
    assert_eq!(plan, found("sheet", "Promises/Plan"));
    assert_eq!(
        imported("Rattle.float.specs.declared.wide.Wide.{Wide}"),
        None
    );
    assert_eq!(imported("Rattle.std.specs.Prelude.{ℕ}"), None);
    assert_eq!(imported("lib.Ieee.{nan}"), None);
}

/// The imports that the contract of a public function names.
fn named(name: &str, file: &str, function: &str) -> Vec<(String, String)> {
    let text = text(&root().join(format!("crates/{name}/src/{file}.rt")));
    let at = text
        .find(&format!("pub fn {function}("))
        .expect("the operation");
    let end = text[at..].find("\n{").expect("its body") + at;
    let contract = &text[at..end];
    let ghosts = text
        .lines()
        .filter_map(|line| line.strip_prefix("ghost use "));
    let cited = |line: &&str| match line.split_once(" as ") {
        Some((_, short)) => contract.contains(&format!("{}.", short.trim_end_matches(';'))),
        None => line
            .split(['{', '}'])
            .nth(1)
            .is_some_and(|names| names.split(", ").any(|word| contract.contains(word))),
    };
    ghosts.filter(cited).filter_map(imported).collect()
}

/// The files that the operations' contracts reach, with their lines, by crate.
fn reached() -> BTreeMap<String, BTreeMap<String, usize>> {
    let mut waiting: Vec<_> = OPERATIONS
        .iter()
        .flat_map(|&(c, f, o)| named(c, f, o))
        .collect();
    let mut seen = BTreeSet::new();
    let mut found: BTreeMap<String, BTreeMap<String, usize>> = BTreeMap::new();
    while let Some((name, file)) = waiting.pop() {
        if !seen.insert((name.clone(), file.clone())) {
            continue;
        }
        let text = text(&root().join(format!("crates/{name}/specs/{file}.antt")));
        waiting.extend(text.lines().filter_map(import).filter_map(imported));
        found
            .entry(name)
            .or_default()
            .insert(file, text.lines().count());
    }
    found
}

#[test]
fn contracts_reach_no_statement() {
    let files: BTreeSet<String> = definitions().iter().map(|file| name(file)).collect();
    for stated in STATED {
        assert!(files.contains(stated), "no file is called {stated}");
        for (crate_, reached) in reached() {
            assert!(!reached.contains_key(stated), "{crate_} {stated}");
        }
    }
}

/// The rows of the table in `docs/TRUST.md`: crate, files, lines, names.
fn rows() -> Vec<String> {
    reached()
        .iter()
        .map(|(name, files)| {
            let lines: usize = files.values().sum();
            let names: Vec<_> = files.keys().map(|file| format!("`{file}`")).collect();
            format!(
                "| `{name}` | {} | {lines} | {} |",
                files.len(),
                names.join(", ")
            )
        })
        .collect()
}

#[test]
fn trust_lists_what_the_contracts_reach() {
    let rows = rows();
    assert!(rows.len() == 6, "{} crates", rows.len());
    let trust = text(&root().join("docs/TRUST.md"));
    let missing: Vec<_> = rows
        .iter()
        .filter(|row| !trust.contains(row.as_str()))
        .cloned()
        .collect();
    assert!(
        missing.is_empty(),
        "docs/TRUST.md should say\n{}",
        missing.join("\n")
    );
}
