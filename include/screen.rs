//! The screen for Rust: the functions of `screen.h`, which says what each does, what the four cells of an answer hold and what a
//! caller has to see to; here each call is `unsafe` for that reason. `bin/c-example` holds this file to `screen.h`.
//!
//! A flow is asked for by its name, or by that, a space and an edition: `b"P0133001 711"`.
//!
//! Link `crates/screen/out/libscreen.a`, for x86-64 Linux, which `rt lib` in crates/screen builds. In a `build.rs`:
//! `println!("cargo:rustc-link-search=native=crates/screen/out"); println!("cargo:rustc-link-lib=static=screen");`

// The codes of types.
pub const SCREEN_TEXT: u32 = 0;
pub const SCREEN_INT: u32 = 1;
pub const SCREEN_DEC: u32 = 2;
pub const SCREEN_DATE: u32 = 3;
pub const SCREEN_DATETIME: u32 = 4;
pub const SCREEN_BOL: u32 = 5;
pub const SCREEN_PERIOD: u32 = 6;
pub const SCREEN_NULL: u32 = 7;

// The codes of marks.
pub const SCREEN_BARE: u32 = 0;
pub const SCREEN_OPT: u32 = 1;
pub const SCREEN_FIXED: u32 = 2;

extern "C" {
    /// Judges a file for a flow.
    pub fn screen_judge(flow: *const u8, flow_len: usize, file: *const u8, file_len: usize, answer: *mut [u64; 4]);

    /// Writes the file of a sheet.
    pub fn screen_write(
        flow: *const u8, flow_len: usize, sheet: *const u8, sheet_len: usize, out: *mut u8, out_len: usize, answer: *mut [u64; 4],
    );

    /// Reads a file to a sheet.
    pub fn screen_read(
        flow: *const u8, flow_len: usize, file: *const u8, file_len: usize, out: *mut u8, out_len: usize, answer: *mut [u64; 4],
    );

    /// Exports a file as comma-separated text.
    pub fn screen_export(
        flow: *const u8, flow_len: usize, file: *const u8, file_len: usize, out: *mut u8, out_len: usize, answer: *mut [u64; 4],
    );

    /// Imports comma-separated text as a sheet.
    pub fn screen_import(text: *const u8, text_len: usize, out: *mut u8, out_len: usize, answer: *mut [u64; 4]);

    /// Gives the value of one field of a file that the flow accepts.
    pub fn screen_value(
        flow: *const u8, flow_len: usize, file: *const u8, file_len: usize, record: usize, field: usize, answer: *mut [u64; 4],
    );

    /// Says whether a P0012001 file has a period.
    pub fn screen_period(
        flow: *const u8, flow_len: usize, file: *const u8, file_len: usize, period: usize, answer: *mut [u64; 4],
    );

    /// Judges one field's bytes against a type and a mark.
    pub fn screen_field(
        code: u32, p: usize, q: usize, mark: u32, fixed: *const u8, fixed_len: usize, bytes: *const u8, bytes_len: usize,
        answer: *mut [u64; 4],
    );

    /// Returns the checksum of all records in some bytes.
    pub fn screen_checksum(bytes: *const u8, bytes_len: usize) -> u32;

    /// Steps the flow table through kinds.
    pub fn screen_step(
        flow: *const u8, flow_len: usize, kinds: *const u8, kinds_len: usize, follow: *mut [u8; 96], answer: *mut [u64; 4],
    );

    /// Makes an index of a file, four cells an entry.
    pub fn screen_index(
        flow: *const u8, flow_len: usize, file: *const u8, file_len: usize, cells: *mut u64, cell_count: usize, answer: *mut [u64; 4],
    );
}
