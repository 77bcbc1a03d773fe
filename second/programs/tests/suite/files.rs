//! The files of this workspace: no two need each other, and each says in its first line what it holds.

use std::collections::{BTreeMap, BTreeSet};
use std::fs;
use std::path::{Path, PathBuf};

use kit::files::ROOT;

/// The modules of a crate, by their paths from its root; each stands in a file of its own.
type Modules = BTreeMap<Vec<String>, String>;

/// The files below a folder.
fn files(folder: &Path) -> Vec<PathBuf> {
    let entries = fs::read_dir(folder).into_iter().flatten();
    let paths = entries.map(|entry| entry.unwrap().path());
    let below = paths.flat_map(|path| match path.is_dir() {
        true => files(&path),
        false => vec![path],
    });
    below
        .filter(|path| !path.starts_with(format!("{ROOT}/second/target")))
        .collect()
}

/// The modules in a folder. Programs that use the crate beside them are none of its modules.
fn modules(folder: &Path) -> Modules {
    let module = |path: PathBuf| {
        let text = fs::read_to_string(&path).unwrap();
        let path = path.strip_prefix(folder).unwrap().with_extension("");
        let mut names: Vec<String> = path.iter().map(|n| n.to_str().unwrap().into()).collect();
        names.pop_if(|name| ["lib", "main", "mod"].contains(&name.as_str()));
        (names, text)
    };
    let files = files(folder).into_iter();
    let files = files.filter(|path| !path.starts_with(folder.join("bin")));
    files.map(module).collect()
}

/// The paths that begin with a word, without it, those in brackets one by one.
fn paths<'a>(text: &'a str, word: &str) -> Vec<Vec<&'a str>> {
    let mut paths = Vec::new();
    let word = format!("{word}::");
    for (at, _) in text.match_indices(&word) {
        let rest = &text[at + word.len()..];
        let list = rest.strip_prefix('{').and_then(|list| list.split_once('}'));
        for path in list.map_or(rest, |(list, _)| list).split(',') {
            let path = path.trim_start();
            let end = path.find(|c: char| c != ':' && c != '_' && !c.is_alphanumeric());
            paths.push(path[..end.unwrap_or(path.len())].split("::").collect());
            if list.is_none() {
                break;
            }
        }
    }
    paths
}

/// The modules that one needs: those that it declares, and those that it takes something from.
fn needed<'a>(modules: &'a Modules, module: &[String]) -> BTreeSet<&'a Vec<String>> {
    let children = modules
        .keys()
        .filter(|other| other.split_last().is_some_and(|(_, m)| m == module));
    let mut needed: BTreeSet<_> = children.collect();
    let above = module.split_last().map_or(module, |(_, above)| above);
    for (word, from) in [("crate", &[][..]), ("super", above)] {
        for path in paths(&modules[module], word) {
            let mut full: Vec<String> = from.to_vec();
            full.extend(path.into_iter().map(String::from));
            // What is not a module stands in one.
            while !modules.contains_key(&full) {
                full.pop();
            }
            needed.extend(modules.get_key_value(&full).map(|(name, _)| name));
        }
    }
    needed
}

/// The modules that need each other, at once or by others, and those that need one of them.
fn entangled(modules: &Modules) -> Vec<String> {
    let mut left: BTreeMap<_, _> = modules.keys().map(|m| (m, needed(modules, m))).collect();
    loop {
        let free: Vec<_> = left
            .iter()
            .filter(|(_, needed)| needed.is_empty())
            .collect();
        let free: Vec<_> = free.into_iter().map(|(module, _)| *module).collect();
        if free.is_empty() {
            return left.keys().map(|module| module.join("::")).collect();
        }
        left.retain(|module, _| !free.contains(module));
        for needed in left.values_mut() {
            needed.retain(|module| !free.contains(module));
        }
    }
}

#[test]
fn no_two_files_need_each_other() {
    for package in ["port", "programs", "tools", "kit"] {
        for part in ["src", "tests/suite"] {
            let folder = Path::new(ROOT).join("second").join(package).join(part);
            let modules = modules(&folder);
            assert_eq!(modules.is_empty(), !folder.exists(), "{folder:?}");
            assert_eq!(entangled(&modules), [""; 0], "{folder:?}");
        }
    }
}

#[test]
fn files_that_need_each_other_are_found() {
    // Words of their own, or this file would seem to need others.
    let text = |text: &str| text.replace("root", "crate").replace("above", "super");
    let modules = |files: &[(&str, &str)]| -> Modules {
        let names = |path: &str| path.split_terminator("::").map(String::from).collect();
        files
            .iter()
            .map(|(path, sample)| (names(path), text(sample)))
            .collect()
    };
    let good = [
        ("", "mod a; mod b; use b::c::D;"),
        ("a", "use root::b::{c, c::D};"),
        ("b", "mod c; mod d; use c::D;"),
        ("b::c", "fn f() { above::d::g(); }"),
        ("b::d", "use std::fs;"),
    ];
    assert_eq!(entangled(&modules(&good)), [""; 0]);
    let turned = |place: usize, text: &'static str| {
        let mut files = good;
        files[place].1 = text;
        entangled(&modules(&files)).join(" ")
    };
    assert_eq!(turned(4, "use above::c::D;"), " a b b::c b::d");
    assert_eq!(turned(4, "use root::{x, b::{c}};"), " a b b::c b::d");
    assert_eq!(turned(1, "use root::Thing;"), " a");
    assert_eq!(turned(3, "use above::{d, Thing};"), " a b b::c");
}

#[test]
fn every_file_says_what_it_holds_and_is_not_long() {
    let files = files(&Path::new(ROOT).join("second"));
    assert!(files.len() > 70, "{} files", files.len());
    for file in files.iter().filter(|file| !file.ends_with("Cargo.lock")) {
        let text = fs::read_to_string(file).unwrap();
        let mut lines = text.lines().skip_while(|line| line.starts_with("#!/"));
        let first = lines.next().unwrap_or_default();
        let says = ["//! ", "# "].iter().any(|begin| first.starts_with(begin));
        assert!(says, "{file:?}: {first}");
        assert!(text.lines().count() <= 400, "{file:?}");
    }
}
