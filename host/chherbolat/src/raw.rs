//! The functions of include/chherbolat.h as they are; docs/ABI.md says what each gives and refuses.
//!
//! # Safety
//!
//! Each pointer and the length behind it are a slice; one that is written to is borrowed by the call alone.
use answer::Answer;

#[link(name = "chherbolat", kind = "static")]
unsafe extern "C" {
    pub fn chherbolat_standard_id_new(raw: u16) -> Answer;
    pub fn chherbolat_extended_id_new(raw: u32) -> Answer;
    pub fn chherbolat_extended_id_standard_id(raw: u32) -> Answer;

    pub fn chherbolat_new_from_parameters(
        extended: bool,
        id: u32,
        remote_request: bool,
        self_reception: bool,
        dlc: usize,
        data: *const u8,
        data_length: usize,
        frame: *mut u8,
        frame_length: usize,
    ) -> Answer;
    pub fn chherbolat_new_with_remote_length(
        extended: bool,
        id: u32,
        remote_request: bool,
        self_reception: bool,
        dlc: usize,
        data: *const u8,
        data_length: usize,
        frame: *mut u8,
        frame_length: usize,
    ) -> Answer;
    pub fn chherbolat_new(
        extended: bool,
        id: u32,
        data: *const u8,
        data_length: usize,
        frame: *mut u8,
        frame_length: usize,
    ) -> Answer;
    pub fn chherbolat_new_self_reception(
        extended: bool,
        id: u32,
        data: *const u8,
        data_length: usize,
        frame: *mut u8,
        frame_length: usize,
    ) -> Answer;

    pub fn chherbolat_is_extended_format(frame: *const u8, frame_length: usize) -> Answer;
    pub fn chherbolat_is_remote_request(frame: *const u8, frame_length: usize) -> Answer;
    pub fn chherbolat_is_self_reception(frame: *const u8, frame_length: usize) -> Answer;
    pub fn chherbolat_data_length_code(frame: *const u8, frame_length: usize) -> Answer;
    pub fn chherbolat_data_length(frame: *const u8, frame_length: usize) -> Answer;
    pub fn chherbolat_data_offset(frame: *const u8, frame_length: usize) -> Answer;

    pub fn chherbolat_identifier(frame: *const u8, frame_length: usize) -> Answer;
    pub fn chherbolat_data(frame: *const u8, frame_length: usize, out: *mut u8, out_length: usize) -> Answer;
    pub fn chherbolat_as_slice(frame: *const u8, frame_length: usize, out: *mut u8, out_length: usize) -> Answer;

    pub fn chherbolat_single_standard_filter_new(
        id: *const u8,
        id_length: usize,
        rtr: *const u8,
        rtr_length: usize,
        first: *const u8,
        first_length: usize,
        second: *const u8,
        second_length: usize,
        registers: *mut u8,
        registers_length: usize,
    ) -> Answer;
    pub fn chherbolat_single_extended_filter_new(
        id: *const u8,
        id_length: usize,
        rtr: *const u8,
        rtr_length: usize,
        registers: *mut u8,
        registers_length: usize,
    ) -> Answer;
    pub fn chherbolat_dual_standard_filter_new(
        first_id: *const u8,
        first_id_length: usize,
        first_rtr: *const u8,
        first_rtr_length: usize,
        first_payload: *const u8,
        first_payload_length: usize,
        second_id: *const u8,
        second_id_length: usize,
        second_rtr: *const u8,
        second_rtr_length: usize,
        registers: *mut u8,
        registers_length: usize,
    ) -> Answer;
    pub fn chherbolat_dual_extended_filter_new(
        first: *const u8,
        first_length: usize,
        second: *const u8,
        second_length: usize,
        registers: *mut u8,
        registers_length: usize,
    ) -> Answer;

    pub fn chherbolat_single_standard_filter_new_from_code_mask(
        id_code: u16,
        id_mask: u16,
        rtr_code: bool,
        rtr_mask: bool,
        first_code: u8,
        second_code: u8,
        first_mask: u8,
        second_mask: u8,
        registers: *mut u8,
        registers_length: usize,
    ) -> Answer;
    pub fn chherbolat_single_extended_filter_new_from_code_mask(
        id_code: u32,
        id_mask: u32,
        rtr_code: bool,
        rtr_mask: bool,
        registers: *mut u8,
        registers_length: usize,
    ) -> Answer;
    pub fn chherbolat_dual_standard_filter_new_from_code_mask(
        first_id_code: u16,
        first_id_mask: u16,
        first_rtr_code: bool,
        first_rtr_mask: bool,
        first_payload_code: u8,
        first_payload_mask: u8,
        second_id_code: u16,
        second_id_mask: u16,
        second_rtr_code: bool,
        second_rtr_mask: bool,
        registers: *mut u8,
        registers_length: usize,
    ) -> Answer;
    pub fn chherbolat_dual_extended_filter_new_from_code_mask(
        first_code: u16,
        second_code: u16,
        first_mask: u16,
        second_mask: u16,
        registers: *mut u8,
        registers_length: usize,
    ) -> Answer;

    pub fn chherbolat_filter_from_list(
        extended: bool,
        list: *const u32,
        list_length: usize,
        pattern: *mut u8,
        pattern_length: usize,
        registers: *mut u8,
        registers_length: usize,
    ) -> Answer;

    pub fn chherbolat_matcher_accepts(
        kind: u8,
        registers: *const u8,
        registers_length: usize,
        frame: *const u8,
        frame_length: usize,
    ) -> Answer;

    pub fn chherbolat_read_file(file: *const u8, file_length: usize) -> Answer;
    pub fn chherbolat_write_file(
        filters: *const u8,
        filters_length: usize,
        frames: *const u8,
        frames_length: usize,
        out: *mut u8,
        out_length: usize,
    ) -> Answer;

    pub fn chherbolat_report(file: *const u8, file_length: usize, out: *mut u8, out_length: usize) -> Answer;

    pub fn chherbolat_transmit(status: u32, error_passive: bool) -> Answer;
    pub fn chherbolat_poll(status: u32, error_passive: bool, in_flight: bool) -> Answer;
    pub fn chherbolat_receive(status: u32) -> Answer;

    pub fn chherbolat_box_script(script: *const u8, script_length: usize, out: *mut u8, out_length: usize) -> Answer;
}
