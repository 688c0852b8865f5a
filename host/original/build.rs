//! Copies the driver's two files, byte for byte, to OUT_DIR/src/twai/ and writes the file that declares their module.
//! TWAI_SRC names the folder that holds src/twai/.
use std::{env, fs, path::PathBuf};

const KNOWN_CFGS: [&str; 9] =
    ["esp32", "esp32c3", "esp32c6", "esp32h2", "esp32s2", "esp32s3", "soc_has_twai0", "soc_has_twai1", "docsrs"];
const CHIP_CFGS: [&str; 2] = ["esp32c3", "soc_has_twai0"];

fn main() {
    copy_driver();
    for cfg in KNOWN_CFGS {
        println!("cargo:rustc-check-cfg=cfg({cfg})");
    }
    for cfg in CHIP_CFGS {
        println!("cargo:rustc-cfg={cfg}");
    }
}

fn copy_driver() {
    println!("cargo:rerun-if-env-changed=TWAI_SRC");
    let from = PathBuf::from(env::var("TWAI_SRC").expect("TWAI_SRC: the folder that holds src/twai/")).join("src/twai");
    let tree = PathBuf::from(env::var("OUT_DIR").unwrap()).join("src");
    fs::create_dir_all(tree.join("twai")).unwrap();
    for name in ["mod.rs", "filter.rs"] {
        let file = from.join(name);
        println!("cargo:rerun-if-changed={}", file.display());
        let bytes = fs::read(&file).unwrap_or_else(|error| panic!("{}: {error}", file.display()));
        fs::write(tree.join("twai").join(name), bytes).unwrap();
    }
    fs::write(tree.join("tree.rs"), "pub mod twai;\n").unwrap();
}
