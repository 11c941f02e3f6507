//! Links the static library. If the sources of the original are available, the tests compare with them.
use std::env;
use std::fs;
use std::path::PathBuf;

fn main() {
    println!("cargo:rerun-if-env-changed=VVCC_LIB_DIR");
    println!("cargo:rerun-if-env-changed=VVCC_ORIGINAL");
    let here = PathBuf::from(env::var("CARGO_MANIFEST_DIR").unwrap());
    let lib = env::var("VVCC_LIB_DIR").map_or(here.join("../../target/staticlib"), PathBuf::from);
    println!(
        "cargo:rerun-if-changed={}",
        lib.join("libvvcc_c.a").display()
    );
    println!("cargo:rustc-link-search=native={}", lib.display());
    println!("cargo:rustc-link-lib=static=vvcc_c");
    if let Ok(original) = env::var("VVCC_ORIGINAL") {
        let original =
            fs::canonicalize(original).expect("VVCC_ORIGINAL names the folder with vvcc.rs");
        let mods: String = ["error", "boxes", "hvcc", "vvcc"]
            .iter()
            .map(|m| {
                format!(
                    "#[path = {:?}] #[allow(warnings)] pub mod {m};\n",
                    original.join(format!("{m}.rs"))
                )
            })
            .collect();
        fs::write(
            PathBuf::from(env::var("OUT_DIR").unwrap()).join("original.rs"),
            mods,
        )
        .unwrap();
        println!("cargo:rustc-cfg=original");
    }
}
