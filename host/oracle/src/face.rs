//! The functions of docs/ABI.md, by their names there without the prefix, as a table that each side fills.
use crate::answer::Answer;

pub mod files;
pub mod filters;

pub const FRAME_LENGTH: usize = 13;

type FullConstructor = unsafe extern "C" fn(
    extended: bool,
    id: u32,
    remote_request: bool,
    self_reception: bool,
    dlc: usize,
    data: *const u8,
    data_length: usize,
    frame: *mut u8,
    frame_length: usize,
) -> Answer;
type Constructor = unsafe extern "C" fn(
    extended: bool,
    id: u32,
    data: *const u8,
    data_length: usize,
    frame: *mut u8,
    frame_length: usize,
) -> Answer;
type Reader = unsafe extern "C" fn(frame: *const u8, frame_length: usize) -> Answer;
type Copier = unsafe extern "C" fn(frame: *const u8, frame_length: usize, out: *mut u8, out_length: usize) -> Answer;

pub struct Face {
    pub standard_id_new: unsafe extern "C" fn(raw: u16) -> Answer,
    pub extended_id_new: unsafe extern "C" fn(raw: u32) -> Answer,
    pub extended_id_standard_id: unsafe extern "C" fn(raw: u32) -> Answer,
    pub new_from_parameters: FullConstructor,
    pub new_with_remote_length: FullConstructor,
    pub new: Constructor,
    pub new_self_reception: Constructor,
    pub is_extended_format: Reader,
    pub is_remote_request: Reader,
    pub is_self_reception: Reader,
    pub data_length_code: Reader,
    pub data_length: Reader,
    pub data_offset: Reader,
    pub identifier: Reader,
    pub data: Copier,
    pub as_slice: Copier,
    pub filters: filters::Filters,
    pub matcher_accepts: unsafe extern "C" fn(
        kind: u8,
        registers: *const u8,
        registers_length: usize,
        frame: *const u8,
        frame_length: usize,
    ) -> Answer,
    pub files: files::Files,
    pub transmit: unsafe extern "C" fn(status: u32, error_passive: bool) -> Answer,
    pub poll: unsafe extern "C" fn(status: u32, error_passive: bool, in_flight: bool) -> Answer,
    pub receive: unsafe extern "C" fn(status: u32) -> Answer,
}
