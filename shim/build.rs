//! Links the library. It lies in the folder lib of the package, with the kit's own C parts; AIO_LIB and
//! AIO_KIT name other folders of the two.
fn main() {
    let package = std::env::var("CARGO_MANIFEST_DIR").expect("cargo names the package's folder");
    let folder = |name| std::env::var(name).unwrap_or(format!("{package}/lib"));
    let (library, kit) = (folder("AIO_LIB"), folder("AIO_KIT"));
    println!("cargo:rustc-link-search=native={library}");
    println!("cargo:rustc-link-search=native={kit}");
    println!("cargo:rustc-link-lib=static=aio_c");
    println!("cargo:rustc-link-lib=static=libc_c");
    println!("cargo:rerun-if-changed={library}/libaio_c.a");
    println!("cargo:rerun-if-env-changed=AIO_LIB");
    println!("cargo:rerun-if-env-changed=AIO_KIT");
}
