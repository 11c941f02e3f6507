//! The functions of the static library, as include/vvcc.h declares them.

#[repr(C)]
#[derive(Clone, Copy)]
pub struct Written {
    pub refusal: u32,
    pub len: usize,
}

#[repr(C)]
#[derive(Clone, Copy)]
pub struct Read {
    pub refusal: u32,
    pub consumed: usize,
}

#[repr(C)]
#[derive(Clone, Copy)]
pub struct Unit {
    pub refusal: u32,
    pub found: u32,
    pub start: usize,
    pub len: usize,
    pub next: usize,
}

#[repr(C)]
#[derive(Clone, Copy)]
pub struct Check {
    pub refusal: u32,
    pub passes: u32,
}

extern "C" {
    pub fn vvcc_still_record(
        record: *const u8,
        record_len: usize,
        chroma_format_idc: u8,
        bit_depth: u8,
        width: u32,
        height: u32,
        out: *mut u8,
        out_len: usize,
    ) -> Written;
    pub fn vvcc_still_stream(
        record: *const u8,
        record_len: usize,
        stored: *const u8,
        stored_len: usize,
        has_target: u8,
        target: u16,
        short_codes: u8,
        out: *mut u8,
        out_len: usize,
    ) -> Written;
    pub fn vvcc_access_unit(
        record: *const u8,
        record_len: usize,
        item: *const u8,
        item_len: usize,
        has_target: u8,
        target: u16,
        short_codes: u8,
        scratch: *mut u8,
        scratch_len: usize,
        out: *mut u8,
        out_len: usize,
    ) -> Written;
    pub fn vvcc_strict_record(
        record: *const u8,
        record_len: usize,
        scratch: *mut u8,
        scratch_len: usize,
    ) -> Read;
    pub fn vvcc_next_unit(stream: *const u8, stream_len: usize, from: usize) -> Unit;
    pub fn vvcc_next_item_unit(
        item: *const u8,
        item_len: usize,
        length_size: u8,
        from: usize,
    ) -> Unit;
    pub fn vvcc_check_unit(unit: *const u8, unit_len: usize) -> Check;
}
