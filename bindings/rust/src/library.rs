//! The static library's one function: a slice is a pointer and a length.

unsafe extern "C" {
    pub fn hannuvozh_lookup(
        listing: *const u8,
        listing_length: usize,
        settings: *const u8,
        settings_length: usize,
        start: *const u8,
        start_length: usize,
        specifier: *const u8,
        specifier_length: usize,
        limit: u32,
        result: *mut u8,
        result_length: usize,
        list_numbers: *mut u32,
        list_numbers_length: usize,
        list_text: *mut u8,
        list_text_length: usize,
        work: *mut u8,
        work_length: usize,
        counts: *mut [u32; 4],
    ) -> u32;
}
