//! The C calls as `include/pumxaqert.h` declares them. The wrapper is in the crate's root; these are for who has to
//! hand over what it cannot express.

/// Recover and nudge.
pub type OnInstance = unsafe extern "C" fn(
    table: *mut u8,
    table_len: usize,
    n: usize,
    s: usize,
    c: usize,
    out: *mut u8,
    out_len: usize,
    owner: usize,
    number: usize,
    values: *mut [usize; 4],
) -> u32;

/// The writers of a journal's entries.
pub type WritesEntry = unsafe extern "C" fn(
    table: *const u8,
    table_len: usize,
    n: usize,
    s: usize,
    c: usize,
    out: *mut u8,
    out_len: usize,
    owner: usize,
    number: usize,
    written: *mut usize,
) -> u32;

extern "C" {
    pub fn pumxaqert_table_length(n: usize, s: usize) -> usize;

    pub fn pumxaqert_blank(table: *mut u8, table_len: usize, n: usize, s: usize, c: usize) -> u32;

    pub fn pumxaqert_judge(table: *const u8, table_len: usize, n: usize, s: usize, c: usize)
        -> u32;

    pub fn pumxaqert_part(
        table: *const u8,
        table_len: usize,
        n: usize,
        s: usize,
        c: usize,
        owner: usize,
        number: usize,
        length: *mut usize,
    ) -> usize;

    pub fn pumxaqert_request(
        table: *mut u8,
        table_len: usize,
        n: usize,
        s: usize,
        c: usize,
        out: *mut u8,
        out_len: usize,
        op: usize,
        key: u32,
        second: u32,
        edit: u64,
        values: *mut [usize; 4],
    ) -> u32;

    pub fn pumxaqert_message(
        table: *mut u8,
        table_len: usize,
        n: usize,
        s: usize,
        c: usize,
        out: *mut u8,
        out_len: usize,
        bytes: *const u8,
        bytes_len: usize,
        values: *mut [usize; 4],
    ) -> u32;

    pub fn pumxaqert_recover(
        table: *mut u8,
        table_len: usize,
        n: usize,
        s: usize,
        c: usize,
        out: *mut u8,
        out_len: usize,
        owner: usize,
        number: usize,
        values: *mut [usize; 4],
    ) -> u32;

    pub fn pumxaqert_nudge(
        table: *mut u8,
        table_len: usize,
        n: usize,
        s: usize,
        c: usize,
        out: *mut u8,
        out_len: usize,
        owner: usize,
        number: usize,
        values: *mut [usize; 4],
    ) -> u32;

    pub fn pumxaqert_settled(
        table: *const u8,
        table_len: usize,
        n: usize,
        s: usize,
        c: usize,
        owner: usize,
        number: usize,
        values: *mut [u64; 5],
    ) -> u32;

    pub fn pumxaqert_hand_out(
        table: *mut u8,
        table_len: usize,
        n: usize,
        s: usize,
        c: usize,
        list: *mut u16,
        list_len: usize,
        codes: *mut usize,
    ) -> u32;

    pub fn pumxaqert_read_message(
        n: usize,
        s: usize,
        c: usize,
        bytes: *const u8,
        bytes_len: usize,
        fields: *mut [u64; 19],
        offset: *mut usize,
    ) -> u32;

    pub fn pumxaqert_write_message(
        n: usize,
        s: usize,
        c: usize,
        out: *mut u8,
        out_len: usize,
        fields: *const [u64; 19],
        written: *mut usize,
        offset: *mut usize,
    ) -> u32;

    pub fn pumxaqert_stream_begin(buf: *const u8, buf_len: usize, place: *mut [usize; 3]) -> u32;

    pub fn pumxaqert_stream_take(
        buf: *mut u8,
        buf_len: usize,
        place: *mut [usize; 3],
        bytes: *const u8,
        bytes_len: usize,
        values: *mut [usize; 3],
    ) -> u32;

    pub fn pumxaqert_stream_next(
        buf: *const u8,
        buf_len: usize,
        place: *mut [usize; 3],
        values: *mut [usize; 3],
    ) -> u32;

    pub fn pumxaqert_entry_length(kind: usize) -> usize;

    pub fn pumxaqert_record_entry(
        table: *const u8,
        table_len: usize,
        n: usize,
        s: usize,
        c: usize,
        out: *mut u8,
        out_len: usize,
        owner: usize,
        number: usize,
        written: *mut usize,
    ) -> u32;

    pub fn pumxaqert_mark_entry(
        table: *const u8,
        table_len: usize,
        n: usize,
        s: usize,
        c: usize,
        out: *mut u8,
        out_len: usize,
        owner: usize,
        number: usize,
        written: *mut usize,
    ) -> u32;

    pub fn pumxaqert_replay(
        table: *mut u8,
        table_len: usize,
        n: usize,
        s: usize,
        c: usize,
        journal: *const u8,
        journal_len: usize,
        offset: *mut usize,
    ) -> u32;
}
