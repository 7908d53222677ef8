//! Links the drivers `beside` and `speed` with the proved library: GPMF_LIB names the folder that has libgpmf.a.
fn main() {
    println!("cargo:rerun-if-env-changed=GPMF_LIB");
    let drivers = [("CARGO_FEATURE_BESIDE", "beside"), ("CARGO_FEATURE_SPEED", "speed")];
    for (feature, driver) in drivers {
        if std::env::var_os(feature).is_some() { link(driver); }
    }
}

fn link(driver: &str) {
    let Ok(folder) = std::env::var("GPMF_LIB") else {
        println!("cargo:warning=GPMF_LIB is not set: it must name the folder that has libgpmf.a, as `./gpmf lib` leaves it in target/lib; oracle/beside.sh and bench/run set it");
        std::process::exit(1);
    };
    let library = format!("{folder}/libgpmf.a");
    if !std::path::Path::new(&library).is_file() {
        println!("cargo:warning=there is no {library}: `./gpmf lib` builds it");
        std::process::exit(1);
    }
    println!("cargo:rerun-if-changed={library}");
    println!("cargo:rustc-link-arg-bin={driver}={library}");
}
