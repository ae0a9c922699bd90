//! Links the C library that `./ratmanganese lib PREFIX` made: of the folder that RATMANGANESE_LIB names (PREFIX/lib) the static
//! one, and else the shared one of the system.

fn main() {
    println!("cargo:rerun-if-env-changed=RATMANGANESE_LIB");
    match std::env::var("RATMANGANESE_LIB") {
        Ok(folder) => {
            println!("cargo:rerun-if-changed={folder}/libratmanganese.a");
            println!("cargo:rustc-link-search=native={folder}");
            println!("cargo:rustc-link-lib=static=ratmanganese");
        }
        Err(_) => println!("cargo:rustc-link-lib=dylib=ratmanganese"),
    }
}
