//! Links each archive whose feature is on: a feature has its archive's name, and ARCHIVES is the folder of them all.

/// `tracker` is no archive, but says that `pikowhanu` has the tracker's calls.
const ARCHIVES: [&str; 2] = ["pikowhanu", "probe"];

fn main() {
    println!("cargo:rerun-if-env-changed=ARCHIVES");
    for (variable, _) in std::env::vars() {
        if let Some(name) = variable.strip_prefix("CARGO_FEATURE_") {
            let name = name.to_lowercase();
            if ARCHIVES.contains(&name.as_str()) {
                link(&name);
            }
        }
    }
}

fn link(name: &str) {
    let folder = std::env::var("ARCHIVES").expect("ARCHIVES names the archives' folder");
    println!("cargo:rerun-if-changed={folder}/lib{name}.a");
    println!("cargo:rustc-link-search=native={folder}");
    println!("cargo:rustc-link-lib=static={name}");
}
