//! Links the engine's archive where ENGINE_ARCHIVE names it (a whole path to libengine.a), and says so by the cfg `engine`.

fn main() {
    println!("cargo::rustc-check-cfg=cfg(engine)");
    println!("cargo::rerun-if-env-changed=ENGINE_ARCHIVE");
    if let Ok(archive) = std::env::var("ENGINE_ARCHIVE") {
        println!("cargo::rerun-if-changed={archive}");
        println!("cargo::rustc-link-arg={archive}");
        println!("cargo::rustc-cfg=engine");
    }
}
