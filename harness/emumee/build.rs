//! Names the originals as modules, where they stand. `EMUMEE_SRC` says where; by default the
//! folder `shared/docs/src` beside the repository.
use std::{env, fs, path::PathBuf};

/// The files that compile with no more than the two stand-ins of `stubs`.
const MODULES: [&str; 4] = ["abi", "clock", "scheduler", "x64_unwind"];

fn main() {
    let root = env::var_os("EMUMEE_SRC").map_or("../../../shared/docs/src".into(), PathBuf::from);
    let sources = root.join("rust/emumee-core/src");
    let sources = sources
        .canonicalize()
        .unwrap_or_else(|error| panic!("{}: {error}", sources.display()));
    println!("cargo:rerun-if-env-changed=EMUMEE_SRC");
    println!("cargo:rerun-if-changed={}", sources.display());

    let modules: String = MODULES
        .iter()
        .map(|name| format!("    pub mod {name};\n"))
        .collect();
    let pe = fs::read_to_string(sources.join("pe.rs")).expect("pe.rs");
    let architecture = architecture(&pe).expect("the enum Architecture in pe.rs");
    let generated = format!(
        "#[path = {sources:?}]\nmod sources {{\n{modules}}}\n\
         pub mod pe {{\nuse serde::Serialize;\n{architecture}}}\n"
    );
    let out = PathBuf::from(env::var_os("OUT_DIR").expect("OUT_DIR"));
    fs::write(out.join("sources.rs"), generated).expect("sources.rs");
}

/// The lines of `pe.rs` that declare `Architecture` and its functions: from its `derive` to the next.
fn architecture(pe: &str) -> Option<&str> {
    let name = pe.find("pub enum Architecture")?;
    let start = pe[..name].rfind("#[derive")?;
    let end = name + pe[name..].find("#[derive")?;
    Some(&pe[start..end])
}
