//! The library's source, the C header and this crate declare the same functions.
use std::collections::BTreeMap;
use std::fs;
use std::path::Path;

/// The types of the arguments by function.
type Functions = BTreeMap<String, Vec<String>>;

fn text(path: &Path) -> String {
    fs::read_to_string(path).unwrap_or_else(|error| panic!("{}: {error}", path.display()))
}

/// The functions behind `mark`: a name, and arguments in parentheses.
fn functions(text: &str, mark: &str, types: fn(&str) -> Vec<String>) -> Functions {
    let behind = text.split(mark).skip(1);
    let found = behind.map(|text| {
        let (name, text) = text.split_once('(').expect("arguments");
        let (arguments, _) = text.split_once(')').expect("the end of the arguments");
        let arguments = arguments.split(',').map(str::trim);
        let arguments = arguments.filter(|argument| !argument.is_empty());
        (name.to_string(), arguments.flat_map(types).collect())
    });
    found.collect()
}

fn behind_colon(argument: &str) -> &str {
    argument.split_once(':').expect("a type").1.trim()
}

fn in_library(argument: &str) -> Vec<String> {
    let kind = behind_colon(argument);
    match kind
        .strip_prefix('&')
        .and_then(|kind| kind.strip_suffix(']'))
    {
        None => vec![kind.to_string()],
        Some(slice) => {
            let (lent, of) = slice.split_once('[').expect("a slice");
            let lent = if lent.trim() == "mut" { "mut" } else { "const" };
            vec![format!("*{lent} {of}"), "usize".to_string()]
        }
    }
}

fn in_crate(argument: &str) -> Vec<String> {
    vec![behind_colon(argument).to_string()]
}

fn in_header(argument: &str) -> Vec<String> {
    let number = |kind: &str| match kind.trim() {
        "size_t" => "usize".to_string(),
        kind => {
            let kind = kind.strip_suffix("_t").expect("a number's type");
            kind.replace("uint", "u").replace("int", "i")
        }
    };
    let (kind, _) = argument.rsplit_once([' ', '*']).expect("a name");
    vec![match argument.split_once('*') {
        None => number(kind),
        Some((kind, _)) => match kind.trim().strip_prefix("const ") {
            Some(kind) => format!("*const {}", number(kind)),
            None => format!("*mut {}", number(kind)),
        },
    }]
}

#[test]
fn declarations_agree() {
    let root = Path::new(env!("CARGO_MANIFEST_DIR")).join("../..");
    let mut library = Functions::new();
    for file in fs::read_dir(root.join("crates/exports/src")).unwrap() {
        let source = text(&file.unwrap().path());
        library.extend(functions(&source, "pub extern \"C\" fn ", in_library));
    }
    let own = text(&root.join("bindings/rust/src/ffi.rs"));
    let header = text(&root.join("include/driver_bench.h"));
    let header: String = header
        .lines()
        .filter(|line| line.starts_with("uint64_t "))
        .collect();
    assert!(library.len() > 60, "{} functions", library.len());
    assert_eq!(functions(&own, "pub fn ", in_crate), library);
    assert_eq!(
        functions(&header, "uint64_t scheduler_", in_header),
        part(&library, "scheduler_")
    );
    assert_eq!(
        functions(&header, "uint64_t clock_", in_header),
        part(&library, "clock_")
    );
}

/// The functions with the prefix, without it.
fn part(functions: &Functions, prefix: &str) -> Functions {
    let named = functions.iter().filter_map(|(name, arguments)| {
        let name = name.strip_prefix(prefix)?;
        Some((name.to_string(), arguments.clone()))
    });
    named.collect()
}
