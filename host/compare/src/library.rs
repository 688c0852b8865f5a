//! The library's side: its functions, as the faces of docs/ABI.md want them.
use chherbolat::raw::*;
use oracle::{
    face::{Face, files::Files, filters::Filters},
    lists::FromList,
    receive_box,
    script::BoxScript,
};

pub const LIBRARY: Face = Face {
    standard_id_new: chherbolat_standard_id_new,
    extended_id_new: chherbolat_extended_id_new,
    extended_id_standard_id: chherbolat_extended_id_standard_id,
    new_from_parameters: chherbolat_new_from_parameters,
    new_with_remote_length: chherbolat_new_with_remote_length,
    new: chherbolat_new,
    new_self_reception: chherbolat_new_self_reception,
    is_extended_format: chherbolat_is_extended_format,
    is_remote_request: chherbolat_is_remote_request,
    is_self_reception: chherbolat_is_self_reception,
    data_length_code: chherbolat_data_length_code,
    data_length: chherbolat_data_length,
    data_offset: chherbolat_data_offset,
    identifier: chherbolat_identifier,
    data: chherbolat_data,
    as_slice: chherbolat_as_slice,
    filters: FILTERS,
    matcher_accepts: chherbolat_matcher_accepts,
    files: FILES,
    transmit: chherbolat_transmit,
    poll: chherbolat_poll,
    receive: chherbolat_receive,
};

const FILTERS: Filters = Filters {
    single_standard_filter_new: chherbolat_single_standard_filter_new,
    single_standard_filter_new_from_code_mask: chherbolat_single_standard_filter_new_from_code_mask,
    single_extended_filter_new: chherbolat_single_extended_filter_new,
    single_extended_filter_new_from_code_mask: chherbolat_single_extended_filter_new_from_code_mask,
    dual_standard_filter_new: chherbolat_dual_standard_filter_new,
    dual_standard_filter_new_from_code_mask: chherbolat_dual_standard_filter_new_from_code_mask,
    dual_extended_filter_new: chherbolat_dual_extended_filter_new,
    dual_extended_filter_new_from_code_mask: chherbolat_dual_extended_filter_new_from_code_mask,
};

const FILES: Files =
    Files { read_file: chherbolat_read_file, write_file: chherbolat_write_file, report: chherbolat_report };

pub const FROM_LIST: FromList = chherbolat_filter_from_list;

pub const BOX: (&str, BoxScript) = ("ours", chherbolat_box_script);
pub const MODEL: (&str, BoxScript) = ("the host's model", receive_box::box_script);
