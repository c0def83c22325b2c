//! Links the library for C: the static one in the folder TCPWIT_LIB_DIR, or else the installed one.

fn main() {
    println!("cargo:rerun-if-env-changed=TCPWIT_LIB_DIR");
    match std::env::var("TCPWIT_LIB_DIR") {
        Ok(folder) => {
            println!("cargo:rustc-link-search=native={folder}");
            println!("cargo:rustc-link-lib=static=tcpwit");
        }
        Err(_) => println!("cargo:rustc-link-lib=dylib=tcpwit"),
    }
}
