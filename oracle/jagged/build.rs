//! Copies the original's files to the build's own folder, appends the lines that expose private functions, and puts
//! two empty shells beside them for the files that are not at hand.

use std::env;
use std::fs;
use std::path::Path;

fn main() {
    println!("cargo::rerun-if-changed=../original/jagged");
    println!("cargo::rerun-if-changed=exposed");
    println!("cargo::rerun-if-changed=shells");

    let out = env::var("OUT_DIR").expect("cargo tells the build's folder");
    let folder = Path::new(&out).join("jagged");
    fs::create_dir_all(&folder).expect("a folder for the copies");

    for name in ["error", "ingest", "layout", "mod", "selector", "transcript"] {
        let mut text = read(&format!("../original/jagged/{name}.rs"));
        let lines = format!("exposed/{name}.rs");
        if Path::new(&lines).exists() {
            text.push_str(&read(&lines));
        }
        fs::write(folder.join(format!("{name}.rs")), text).expect("a copy");
    }
    for name in ["budget", "pcs"] {
        let text = read(&format!("shells/{name}.rs"));
        fs::write(folder.join(format!("{name}.rs")), text).expect("a shell");
    }

    // A module file begins with inner comments, so it is named by a path and not included.
    let module = folder.join("mod.rs");
    let root = format!("#[path = {:?}]\npub mod jagged;\n", module.display().to_string());
    fs::write(Path::new(&out).join("root.rs"), root).expect("the module's declaration");
}

fn read(path: &str) -> String {
    fs::read_to_string(path).unwrap_or_else(|error| panic!("{path}: {error}"))
}
