//! Links the verified static libraries: libhealdrip.a from the folder that
//! HEALDRIP_LIB_DIR names, and libbenchcalls.a, the calls on tables, from the
//! folder that BENCHCALLS_LIB_DIR names. Sets the conditions `healdrip_library` and
//! `benchcalls_library` for the code that uses them. Without a variable its library
//! is not linked; with one it must be there.
//!
//! A static library may bring a panic handler and a standard library of its own,
//! which would clash with or replace those of the tests. So it is first joined
//! into one object in which only the C calls are visible (needs ld and objcopy).

use std::process::Command;

/// Name of the library, the variable that names its folder, and its C calls.
const LIBRARIES: [(&str, &str, &[&str]); 2] = [
    ("healdrip", "HEALDRIP_LIB_DIR", &["healdrip_text_check"]),
    (
        "benchcalls",
        "BENCHCALLS_LIB_DIR",
        &[
            "benchcalls_check",
            "benchcalls_list",
            "benchcalls_walk",
            "benchcalls_batch",
            "benchcalls_compare",
            "benchcalls_read_sheet",
        ],
    ),
];

fn run(program: &str, arguments: &[&str]) {
    let status = Command::new(program).args(arguments).status();
    assert!(status.is_ok_and(|status| status.success()), "{program} {arguments:?} failed");
}

fn link(name: &str, folder: &str, calls: &[&str]) {
    let out = std::env::var("OUT_DIR").expect("cargo sets OUT_DIR");
    let (library, object) = (format!("{folder}/lib{name}.a"), format!("{out}/{name}.o"));
    println!("cargo:rerun-if-changed={library}");
    let wanted: Vec<&str> = calls.iter().flat_map(|call| ["-u", call]).collect();
    let joined = ["-r", "--force-group-allocation", "-o", &object, &library];
    run("ld", &[&wanted[..], &joined].concat());
    let kept: Vec<String> =
        calls.iter().map(|call| format!("--keep-global-symbol={call}")).collect();
    let kept: Vec<&str> = kept.iter().map(String::as_str).collect();
    run("objcopy", &[&kept[..], &[object.as_str()]].concat());
    println!("cargo:rustc-link-arg={object}");
    println!("cargo:rustc-cfg={name}_library");
}

fn main() {
    for (name, variable, calls) in LIBRARIES {
        println!("cargo:rustc-check-cfg=cfg({name}_library)");
        println!("cargo:rerun-if-env-changed={variable}");
        if let Ok(folder) = std::env::var(variable) {
            link(name, &folder, calls);
        }
    }
}
