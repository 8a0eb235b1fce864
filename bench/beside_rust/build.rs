//! Links what bench/beside names in BESIDE_LINK: the library's archive, and what libbson takes where it is there.

fn main() {
    println!("cargo:rerun-if-env-changed=BESIDE_LINK");
    let link = std::env::var("BESIDE_LINK").expect("BESIDE_LINK, which bench/beside sets");
    for argument in link.lines() {
        println!("cargo:rustc-link-arg={argument}");
        if argument.starts_with('/') {
            println!("cargo:rerun-if-changed={argument}");
        }
    }
}
