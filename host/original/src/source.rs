//! Says whether the driver that was compiled is the one of esp-hal 1.2.2.

struct File {
    name: &'static str,
    compiled: &'static [u8],
    length: usize,
    digest: u64,
}

const FILES: [File; 2] = [
    File {
        name: "src/twai/mod.rs",
        compiled: include_bytes!(concat!(env!("OUT_DIR"), "/src/twai/mod.rs")),
        length: 67_546,
        digest: 0xC0C3_AB4E_0FEC_5D0C,
    },
    File {
        name: "src/twai/filter.rs",
        compiled: include_bytes!(concat!(env!("OUT_DIR"), "/src/twai/filter.rs")),
        length: 20_482,
        digest: 0x963B_6344_D874_6826,
    },
];

/// FNV-1a, 64 bits.
fn digest(bytes: &[u8]) -> u64 {
    bytes.iter().fold(0xCBF2_9CE4_8422_2325, |hash, byte| (hash ^ u64::from(*byte)).wrapping_mul(0x0100_0000_01B3))
}

/// A line for each of the two files, with its length and digest; an error where one is not what it should be.
pub fn unchanged() -> Result<String, String> {
    let mut lines = Vec::new();
    for file in &FILES {
        let (length, digest) = (file.compiled.len(), digest(file.compiled));
        let found = format!("{}: {length} bytes, FNV-1a {digest:016x}", file.name);
        if length != file.length || digest != file.digest {
            return Err(format!(
                "{found}: changed: {} bytes, FNV-1a {:016x} in esp-hal 1.2.2",
                file.length, file.digest
            ));
        }
        lines.push(format!("{found}: unchanged"));
    }
    Ok(lines.join("\n"))
}
