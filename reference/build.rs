//! Links the proved engine into `bench` if SPERNEVAN_ARCHIVE names its archive, made by `rt lib` in crates/interface.
fn main() {
    println!("cargo:rerun-if-env-changed=SPERNEVAN_ARCHIVE");
    println!("cargo:rustc-check-cfg=cfg(engine)");
    if let Ok(archive) = std::env::var("SPERNEVAN_ARCHIVE") {
        println!("cargo:rerun-if-changed={archive}");
        println!("cargo:rustc-link-arg-bin=bench={archive}");
        println!("cargo:rustc-cfg=engine");
    }
}
