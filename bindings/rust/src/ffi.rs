//! The functions of `include/njuolasti.h`, which says what each answers.

extern "C" {
    pub fn njuolasti_link(
        image: *const u32,
        image_len: usize,
        pool: *const u8,
        pool_len: usize,
        words: *mut u32,
        words_len: usize,
        bytes: *mut u8,
        bytes_len: usize,
        used_words: *mut u32,
        used_bytes: *mut u32,
        files: *mut u32,
        place: *mut u32,
    ) -> u32;

    pub fn njuolasti_well_formed(
        words: *const u32,
        words_len: usize,
        bytes: *const u8,
        bytes_len: usize,
        used_words: u32,
        used_bytes: u32,
        files: u32,
    ) -> u32;

    pub fn njuolasti_message(
        words: *const u32,
        words_len: usize,
        bytes: *const u8,
        bytes_len: usize,
        used_words: u32,
        used_bytes: u32,
        files: u32,
        file: u32,
        name: *const u8,
        name_len: usize,
        found: *mut u32,
    ) -> u32;

    pub fn njuolasti_enum(
        words: *const u32,
        words_len: usize,
        bytes: *const u8,
        bytes_len: usize,
        used_words: u32,
        used_bytes: u32,
        files: u32,
        file: u32,
        name: *const u8,
        name_len: usize,
        found: *mut u32,
    ) -> u32;

    pub fn njuolasti_value_by_number(
        words: *const u32,
        words_len: usize,
        bytes: *const u8,
        bytes_len: usize,
        used_words: u32,
        used_bytes: u32,
        files: u32,
        file: u32,
        index: u32,
        number: u32,
        found: *mut u32,
    ) -> u32;

    pub fn njuolasti_value_by_name(
        words: *const u32,
        words_len: usize,
        bytes: *const u8,
        bytes_len: usize,
        used_words: u32,
        used_bytes: u32,
        files: u32,
        file: u32,
        index: u32,
        name: *const u8,
        name_len: usize,
        found: *mut u32,
    ) -> u32;

    pub fn njuolasti_field_by_number(
        words: *const u32,
        words_len: usize,
        bytes: *const u8,
        bytes_len: usize,
        used_words: u32,
        used_bytes: u32,
        files: u32,
        file: u32,
        message: u32,
        number: u32,
        found: *mut u32,
    ) -> u32;

    pub fn njuolasti_field_by_name(
        words: *const u32,
        words_len: usize,
        bytes: *const u8,
        bytes_len: usize,
        used_words: u32,
        used_bytes: u32,
        files: u32,
        file: u32,
        message: u32,
        mode: u32,
        name: *const u8,
        name_len: usize,
        found: *mut u32,
    ) -> u32;

    pub fn njuolasti_message_name(
        words: *const u32,
        words_len: usize,
        bytes: *const u8,
        bytes_len: usize,
        used_words: u32,
        used_bytes: u32,
        files: u32,
        file: u32,
        message: u32,
        out: *mut u8,
        out_len: usize,
        found: *mut u32,
    ) -> u32;

    pub fn njuolasti_enum_name(
        words: *const u32,
        words_len: usize,
        bytes: *const u8,
        bytes_len: usize,
        used_words: u32,
        used_bytes: u32,
        files: u32,
        file: u32,
        index: u32,
        out: *mut u8,
        out_len: usize,
        found: *mut u32,
    ) -> u32;
}
