//! The library of this repository beside the driver.
pub mod library;

/// How a program ends that found a difference, and one that could not look for any.
pub const DIFFERENT: i32 = 1;
pub const UNUSABLE: i32 = 2;

/// With a comma before each three digits.
pub fn grouped(number: u64) -> String {
    let digits = number.to_string();
    let groups: Vec<&str> = digits.as_bytes().rchunks(3).rev().map(|group| str::from_utf8(group).unwrap()).collect();
    groups.join(",")
}
