//! Links what `scripts/bench` made ready: the static library of the project (folder STANQUIVOL_LIB), the rivals in C and C++
//! (folder BENCH_LIB), and OpenSSL and Botan where the script found them (BENCH_OPENSSL, BENCH_BOTAN).

fn main() {
    let variable = |name: &str| {
        println!("cargo:rerun-if-env-changed={name}");
        std::env::var(name).ok().filter(|value| !value.is_empty())
    };
    let library = variable("STANQUIVOL_LIB").unwrap_or_else(|| "../target/native".into());
    let rivals = variable("BENCH_LIB").unwrap_or_else(|| "../target/bench".into());
    for folder in [&library, &rivals] {
        println!("cargo:rustc-link-search=native={folder}");
    }
    println!("cargo:rerun-if-changed={library}/libstanquivol.a");
    println!("cargo:rerun-if-changed={rivals}/librivals.a");
    println!("cargo:rustc-link-lib=static=stanquivol");
    println!("cargo:rustc-link-lib=static=rivals");
    if variable("BENCH_OPENSSL").is_some() {
        println!("cargo:rustc-cfg=openssl");
        println!("cargo:rustc-link-lib=crypto");
    }
    if let Some(name) = variable("BENCH_BOTAN") {
        println!("cargo:rustc-cfg=botan");
        println!("cargo:rustc-link-lib={name}");
        println!("cargo:rustc-link-lib=stdc++");
    }
}
