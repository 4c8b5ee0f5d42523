//! For the three crates of the original text: tells the folder of the cut text, and links fdlibm or the platform's functions.

use std::path::Path;

fn main() {
    println!("cargo:rerun-if-changed=build.rs");
    println!("cargo:rerun-if-env-changed=ORACLE_TARGET");
    println!("cargo:rustc-check-cfg=cfg(platform)");
    // a feature that the original text asks for
    println!("cargo:rustc-check-cfg=cfg(feature, values(\"powerio-012\"))");
    let Ok(target) = std::env::var("ORACLE_TARGET") else {
        panic!("no ORACLE_TARGET, the folder of the cut text and of fdlibm: run tests/oracle/run, which makes both");
    };
    let target = Path::new(&target);
    let name = std::env::var("CARGO_PKG_NAME").expect("cargo sets it");
    let cut = target.join(if name == "oracle_lifted" { "lifted" } else { "text" });
    for file in ["acopf.rs", "mod.rs", "ratings.rs"] {
        let file = cut.join(file);
        assert!(file.exists(), "no {}: run tests/oracle/run, which cuts it out of the original text", file.display());
        println!("cargo:rerun-if-changed={}", file.display());
    }
    println!("cargo:rustc-env=ORACLE_CUT={}", cut.display());
    if name == "oracle_platform" {
        println!("cargo:rustc-cfg=platform");
        println!("cargo:rustc-link-lib=m");
    } else {
        println!("cargo:rustc-link-search=native={}", target.display());
        println!("cargo:rustc-link-lib=static=fdlibm");
    }
}
