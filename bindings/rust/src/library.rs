//! The functions of include/gad.h as they stand.

extern "C" {
    pub fn gad_read_shape(codes: *mut u32, code_elements: usize, message: *const u8, octets: usize) -> i64;
    pub fn gad_read_velocity(codes: *mut u32, code_elements: usize, message: *const u8, octets: usize) -> i64;
    pub fn gad_write_shape(out: *mut u8, room: usize, codes: *const u32, code_elements: usize) -> i64;
    pub fn gad_write_velocity(out: *mut u8, room: usize, codes: *const u32, code_elements: usize) -> i64;
    pub fn gad_report_shape(quantities: *mut i64, quantity_elements: usize, codes: *const u32, code_elements: usize) -> i64;
    pub fn gad_report_velocity(quantities: *mut i64, quantity_elements: usize, codes: *const u32, code_elements: usize) -> i64;
    pub fn gad_code_shape(codes: *mut u32, code_elements: usize, quantities: *const i64, quantity_elements: usize) -> i64;
    pub fn gad_code_velocity(codes: *mut u32, code_elements: usize, quantities: *const i64, quantity_elements: usize) -> i64;
    pub fn gad_choose(out: *mut u8, room: usize, request: *const i64, request_elements: usize, list: u16) -> i64;
    pub fn gad_code(code: *mut u32, code_elements: usize, field: u8, quantity: i64) -> i64;
    pub fn gad_report(quantity: *mut i64, quantity_elements: usize, field: u8, code: *const u32, code_elements: usize) -> i64;
}
