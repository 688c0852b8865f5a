//! The unchanged driver behind the face of docs/ABI.md, the cases that both sides are given, and what comes of them.
pub mod answer;
pub mod case;
pub mod cases;
pub mod characters;
pub mod compiler;
pub mod course;
pub mod driver;
pub mod face;
pub mod frame_files;
pub mod lists;
pub mod matcher;
pub mod outcome;
pub mod places;
pub mod random;
pub mod receive_box;
pub mod script;
pub mod stored;
