//! Writes its name into the shared library, by which linked programs ask for it. **Not proved.**
//!
//! Until 1.0 a minor version may change a call, so the name has the major and the minor number.
fn main() {
    println!("cargo:rerun-if-changed=build.rs");
    if std::env::var("CARGO_CFG_TARGET_OS").as_deref() == Ok("linux") {
        let [major, minor] = ["MAJOR", "MINOR"]
            .map(|it| std::env::var(format!("CARGO_PKG_VERSION_{it}")).unwrap());
        println!("cargo:rustc-cdylib-link-arg=-Wl,-soname,libpgn_c.so.{major}.{minor}");
    }
}
