//! Links the library: the one in the folder that BIT_SET_LIBRARY_DIR names by its absolute path, as `bindings/c/build`
//! or a release writes it, or else the one in this package for the target processor.
use std::env;
use std::path::Path;

/// The processors for which a released package has a library, newest first, and the features that each needs.
const PROCESSORS: [(&str, &str, &[&str]); 4] = [
    ("x86-64-v3", "x86_64", &["avx2", "bmi1", "bmi2", "fma", "lzcnt", "movbe"]),
    ("x86-64-v2", "x86_64", &["popcnt", "sse4.2"]),
    ("x86-64", "x86_64", &[]),
    ("aarch64", "aarch64", &[]),
];

fn main() {
    println!("cargo:rerun-if-env-changed=BIT_SET_LIBRARY_DIR");
    let folder = named_library().or_else(own_library).unwrap_or_else(|| panic!("{}", missing_library()));
    println!("cargo:rerun-if-changed={folder}/libbit_set.a");
    println!("cargo:rustc-link-search=native={folder}");
    println!("cargo:rustc-link-lib=static=bit_set");
}

/// The folder that the variable names, if it names one.
fn named_library() -> Option<String> {
    let named = env::var_os("BIT_SET_LIBRARY_DIR").filter(|named| !named.is_empty())?;
    let Some(folder) = named.to_str() else {
        panic!("BIT_SET_LIBRARY_DIR is {named:?}, and Cargo takes paths of UTF-8 alone");
    };
    // Cargo does not pass on the folder it was called in, and runs this script and the linker in others.
    if !Path::new(folder).is_absolute() {
        panic!(
            "BIT_SET_LIBRARY_DIR is {folder}, and must be an absolute path, as Cargo makes it of one in [env] \
             that has `relative = true`"
        );
    }
    if !Path::new(folder).join("libbit_set.a").is_file() {
        panic!("there is no libbit_set.a in {folder}, which BIT_SET_LIBRARY_DIR names");
    }
    Some(folder.to_string())
}

/// The message if there is no library.
fn missing_library() -> String {
    let target = env::var("TARGET").unwrap_or_default();
    format!(
        "this package has no library for {target}: set BIT_SET_LIBRARY_DIR to a folder with \
         libbit_set.a, as bindings/c/build or the source release's make writes it"
    )
}

/// The folder of this package with the library for Cargo's target, if there is one.
fn own_library() -> Option<String> {
    let of_target = |name: &str| env::var(format!("CARGO_CFG_TARGET_{name}")).unwrap_or_default();
    let (machine, features) = (of_target("ARCH"), of_target("FEATURE"));
    let has = |feature: &&str| features.split(',').any(|found| found == *feature);
    let fits = |needs: &[&str]| of_target("OS") == "linux" && needs.iter().all(has);
    let libraries = Path::new(&env::var("CARGO_MANIFEST_DIR").ok()?).join("lib");
    PROCESSORS
        .iter()
        .filter(|(_, of, needs)| *of == machine && fits(needs))
        .map(|(processor, ..)| libraries.join(processor))
        .find(|folder| folder.join("libbit_set.a").is_file())
        .map(|folder| folder.display().to_string())
}
