// Links the engine, and the part of the kit through which it asks for memory. `run` says where both
// lie.
use std::env;

fn main() {
    for folder in ["ENGINE", "KIT_C"] {
        let path =
            env::var(folder).unwrap_or_else(|_| panic!("{folder} is not set: call bench/run"));
        println!("cargo::rerun-if-env-changed={folder}");
        println!("cargo::rerun-if-changed={path}");
        println!("cargo::rustc-link-search=native={path}");
    }
    println!("cargo::rustc-link-lib=static=c_interface");
    println!("cargo::rustc-link-lib=static=libc_c");
}
