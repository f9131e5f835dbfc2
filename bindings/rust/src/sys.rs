//! The header `include/icu_locale.h`, which says what each function does, and what a caller owes.
// Written by tools/write_calls from tools/calls.txt and the numbers of that header: change those and not this file.

pub const VERSION: u32 = 7;

pub const IDENTIFIER: u32 = 0;
pub const LOCALE: u32 = 1;
pub const DATA_LOCALE: u32 = 2;

pub const DONE: u32 = 0;
pub const INVALID_LANGUAGE: u32 = 1;
pub const INVALID_SUBTAG: u32 = 2;
pub const INVALID_EXTENSION: u32 = 3;
pub const DUPLICATED_EXTENSION: u32 = 4;
pub const OUT_OF_MEMORY: u32 = 5;
pub const BUFFER_TOO_SMALL: u32 = 6;
pub const UNKNOWN_NUMBER: u32 = 7;
pub const NOT_FOUND: u32 = 8;

pub const KIND_LANGUAGE: u32 = 1;
pub const KIND_SCRIPT: u32 = 2;
pub const KIND_REGION: u32 = 4;
pub const KIND_VARIANT: u32 = 8;
pub const KIND_SINGLETON: u32 = 16;
pub const KIND_ATTRIBUTE: u32 = 32;
pub const KIND_KEY: u32 = 64;
pub const KIND_VALUE: u32 = 128;
pub const KIND_FIELD: u32 = 256;
pub const KIND_OTHER: u32 = 512;
pub const KIND_PRIVATE: u32 = 1024;
pub const KIND_FIELD_VALUE: u32 = 2048;
pub const KIND_END: u32 = 4096;

pub const NO_HINT: u32 = 0;
pub const HINT_MARK: u32 = 1;
pub const HINT_BLANKS: u32 = 2;
pub const HINT_SYSTEM: u32 = 3;
pub const HINT_CODESET: u32 = 4;
pub const HINT_UNDERSCORES: u32 = 5;

pub const BY_LANGUAGE: u32 = 0;
pub const BY_REGION: u32 = 1;

/// A locale that a program holds. A null pointer stands for und.
#[allow(non_camel_case_types)]
#[repr(C)]
pub struct icu_locale_t {
    pub at: *mut std::ffi::c_void,
}

extern "C" {
    pub fn icu_locale_normalize(
        mode: u32,
        text: *const u8,
        length: usize,
        buffer: *mut u8,
        room: usize,
        needed: *mut usize,
    ) -> u32;
    pub fn icu_locale_normalize_lines(
        mode: u32,
        text: *const u8,
        length: usize,
        buffer: *mut u8,
        room: usize,
        needed: *mut usize,
    ) -> u32;
    pub fn icu_locale_check(mode: u32, text: *const u8, length: usize) -> u32;
    pub fn icu_locale_find_fault(mode: u32, text: *const u8, length: usize, start: *mut usize, end: *mut usize) -> u32;
    pub fn icu_locale_expected(mode: u32, text: *const u8, length: usize, place: usize, kinds: *mut u32) -> u32;
    pub fn icu_locale_expected_words(set: u32, buffer: *mut u8, room: usize, needed: *mut usize) -> u32;
    pub fn icu_locale_hint(mode: u32, text: *const u8, length: usize, hint: *mut u32) -> u32;
    pub fn icu_locale_hint_words(number: u32, buffer: *mut u8, room: usize, needed: *mut usize) -> u32;
    pub fn icu_locale_strict_cmp(
        mode: u32,
        text: *const u8,
        length: usize,
        other: *const u8,
        other_length: usize,
        order: *mut i8,
    ) -> u32;
    pub fn icu_locale_normalizing_eq(
        mode: u32,
        text: *const u8,
        length: usize,
        other: *const u8,
        other_length: usize,
        same: *mut u8,
    ) -> u32;
    pub fn icu_locale_compare(
        mode: u32,
        text: *const u8,
        length: usize,
        other: *const u8,
        other_length: usize,
        order: *mut i8,
    ) -> u32;
    pub fn icu_locale_base_name_of(
        mode: u32,
        text: *const u8,
        length: usize,
        buffer: *mut u8,
        room: usize,
        needed: *mut usize,
    ) -> u32;
    pub fn icu_locale_language_of(
        mode: u32,
        text: *const u8,
        length: usize,
        buffer: *mut u8,
        room: usize,
        needed: *mut usize,
    ) -> u32;
    pub fn icu_locale_script_of(
        mode: u32,
        text: *const u8,
        length: usize,
        buffer: *mut u8,
        room: usize,
        needed: *mut usize,
    ) -> u32;
    pub fn icu_locale_region_of(
        mode: u32,
        text: *const u8,
        length: usize,
        buffer: *mut u8,
        room: usize,
        needed: *mut usize,
    ) -> u32;
    pub fn icu_locale_variants_of(
        mode: u32,
        text: *const u8,
        length: usize,
        buffer: *mut u8,
        room: usize,
        needed: *mut usize,
    ) -> u32;
    pub fn icu_locale_keyword_of(
        mode: u32,
        text: *const u8,
        length: usize,
        key: *const u8,
        key_length: usize,
        buffer: *mut u8,
        room: usize,
        needed: *mut usize,
    ) -> u32;
    pub fn icu_locale_parent(
        mode: u32,
        text: *const u8,
        length: usize,
        buffer: *mut u8,
        room: usize,
        needed: *mut usize,
    ) -> u32;
    pub fn icu_locale_matches(
        text: *const u8,
        length: usize,
        range: *const u8,
        range_length: usize,
        same: *mut u8,
    ) -> u32;
    pub fn icu_locale_clean(text: *const u8, length: usize, buffer: *mut u8, room: usize, needed: *mut usize) -> u32;
    pub fn icu_locale_words(status: u32, buffer: *mut u8, room: usize, needed: *mut usize) -> u32;
    pub fn icu_locale_parse(locale: *mut icu_locale_t, text: *const u8, length: usize) -> u32;
    pub fn icu_locale_copy(locale: *mut icu_locale_t, from: *const icu_locale_t) -> u32;
    pub fn icu_locale_free(locale: *mut icu_locale_t);
    pub fn icu_locale_is_und(locale: *const icu_locale_t) -> bool;
    pub fn icu_locale_is_well_formed(locale: *const icu_locale_t) -> bool;
    pub fn icu_locale_cmp(locale: *const icu_locale_t, other: *const icu_locale_t) -> i8;
    pub fn icu_locale_eq(locale: *const icu_locale_t, other: *const icu_locale_t) -> bool;
    pub fn icu_locale_cmp_bytes(locale: *const icu_locale_t, other: *const u8, length: usize) -> i8;
    pub fn icu_locale_eq_text(locale: *const icu_locale_t, text: *const u8, length: usize, same: *mut u8) -> u32;
    pub fn icu_locale_hash(locale: *const icu_locale_t) -> u64;
    pub fn icu_locale_to_string(locale: *const icu_locale_t, buffer: *mut u8, room: usize, needed: *mut usize) -> u32;
    pub fn icu_locale_get_base_name(
        locale: *const icu_locale_t,
        buffer: *mut u8,
        room: usize,
        needed: *mut usize,
    ) -> u32;
    pub fn icu_locale_get_language(
        locale: *const icu_locale_t,
        buffer: *mut u8,
        room: usize,
        needed: *mut usize,
    ) -> u32;
    pub fn icu_locale_get_script(locale: *const icu_locale_t, buffer: *mut u8, room: usize, needed: *mut usize) -> u32;
    pub fn icu_locale_get_region(locale: *const icu_locale_t, buffer: *mut u8, room: usize, needed: *mut usize) -> u32;
    pub fn icu_locale_set_language(locale: *mut icu_locale_t, text: *const u8, length: usize) -> u32;
    pub fn icu_locale_set_script(locale: *mut icu_locale_t, text: *const u8, length: usize) -> u32;
    pub fn icu_locale_set_region(locale: *mut icu_locale_t, text: *const u8, length: usize) -> u32;
    pub fn icu_locale_variant_count(locale: *const icu_locale_t) -> usize;
    pub fn icu_locale_get_variant(
        locale: *const icu_locale_t,
        index: usize,
        buffer: *mut u8,
        room: usize,
        needed: *mut usize,
    ) -> u32;
    pub fn icu_locale_has_variant(locale: *const icu_locale_t, text: *const u8, length: usize) -> bool;
    pub fn icu_locale_add_variant(locale: *mut icu_locale_t, text: *const u8, length: usize) -> u32;
    pub fn icu_locale_remove_variant(locale: *mut icu_locale_t, text: *const u8, length: usize) -> u32;
    pub fn icu_locale_clear_variants(locale: *mut icu_locale_t) -> u32;
    pub fn icu_locale_keyword_count(locale: *const icu_locale_t) -> usize;
    pub fn icu_locale_get_keyword_key(
        locale: *const icu_locale_t,
        index: usize,
        buffer: *mut u8,
        room: usize,
        needed: *mut usize,
    ) -> u32;
    pub fn icu_locale_get_keyword_value(
        locale: *const icu_locale_t,
        index: usize,
        buffer: *mut u8,
        room: usize,
        needed: *mut usize,
    ) -> u32;
    pub fn icu_locale_get_keyword(
        locale: *const icu_locale_t,
        key: *const u8,
        key_length: usize,
        buffer: *mut u8,
        room: usize,
        needed: *mut usize,
    ) -> u32;
    pub fn icu_locale_set_keyword(
        locale: *mut icu_locale_t,
        key: *const u8,
        key_length: usize,
        value: *const u8,
        value_length: usize,
    ) -> u32;
    pub fn icu_locale_remove_keyword(locale: *mut icu_locale_t, key: *const u8, key_length: usize) -> u32;
    pub fn icu_locale_clear_keywords(locale: *mut icu_locale_t) -> u32;
    pub fn icu_locale_extend_unicode(locale: *mut icu_locale_t, from: *const icu_locale_t) -> u32;
    pub fn icu_locale_attribute_count(locale: *const icu_locale_t) -> usize;
    pub fn icu_locale_get_attribute(
        locale: *const icu_locale_t,
        index: usize,
        buffer: *mut u8,
        room: usize,
        needed: *mut usize,
    ) -> u32;
    pub fn icu_locale_has_attribute(locale: *const icu_locale_t, text: *const u8, length: usize) -> bool;
    pub fn icu_locale_add_attribute(locale: *mut icu_locale_t, text: *const u8, length: usize) -> u32;
    pub fn icu_locale_remove_attribute(locale: *mut icu_locale_t, text: *const u8, length: usize) -> u32;
    pub fn icu_locale_clear_attributes(locale: *mut icu_locale_t) -> u32;
    pub fn icu_locale_get_transform_language(
        locale: *const icu_locale_t,
        buffer: *mut u8,
        room: usize,
        needed: *mut usize,
    ) -> u32;
    pub fn icu_locale_set_transform_language(locale: *mut icu_locale_t, text: *const u8, length: usize) -> u32;
    pub fn icu_locale_field_count(locale: *const icu_locale_t) -> usize;
    pub fn icu_locale_get_field_key(
        locale: *const icu_locale_t,
        index: usize,
        buffer: *mut u8,
        room: usize,
        needed: *mut usize,
    ) -> u32;
    pub fn icu_locale_get_field_value(
        locale: *const icu_locale_t,
        index: usize,
        buffer: *mut u8,
        room: usize,
        needed: *mut usize,
    ) -> u32;
    pub fn icu_locale_get_field(
        locale: *const icu_locale_t,
        key: *const u8,
        key_length: usize,
        buffer: *mut u8,
        room: usize,
        needed: *mut usize,
    ) -> u32;
    pub fn icu_locale_set_field(
        locale: *mut icu_locale_t,
        key: *const u8,
        key_length: usize,
        value: *const u8,
        value_length: usize,
    ) -> u32;
    pub fn icu_locale_remove_field(locale: *mut icu_locale_t, key: *const u8, key_length: usize) -> u32;
    pub fn icu_locale_clear_fields(locale: *mut icu_locale_t) -> u32;
    pub fn icu_locale_get_private(locale: *const icu_locale_t, buffer: *mut u8, room: usize, needed: *mut usize) -> u32;
    pub fn icu_locale_set_private(locale: *mut icu_locale_t, text: *const u8, length: usize) -> u32;
    pub fn icu_locale_has_other(locale: *const icu_locale_t, singleton: u8) -> bool;
    pub fn icu_locale_get_other(
        locale: *const icu_locale_t,
        singleton: u8,
        buffer: *mut u8,
        room: usize,
        needed: *mut usize,
    ) -> u32;
    pub fn icu_locale_set_other(locale: *mut icu_locale_t, text: *const u8, length: usize) -> u32;
    pub fn icu_locale_remove_other(locale: *mut icu_locale_t, singleton: u8) -> u32;
    pub fn icu_locale_get_data_locale(
        locale: *const icu_locale_t,
        priority: u32,
        buffer: *mut u8,
        room: usize,
        needed: *mut usize,
    ) -> u32;
    pub fn icu_locale_data_cmp_bytes(
        locale: *const icu_locale_t,
        priority: u32,
        other: *const u8,
        length: usize,
        order: *mut i8,
    ) -> u32;
    pub fn icu_locale_data_cmp(
        locale: *const icu_locale_t,
        other: *const icu_locale_t,
        priority: u32,
        order: *mut i8,
    ) -> u32;
    pub fn icu_locale_get_calendar_algorithm(
        locale: *const icu_locale_t,
        buffer: *mut u8,
        room: usize,
        needed: *mut usize,
    ) -> u32;
    pub fn icu_locale_get_hour_cycle(
        locale: *const icu_locale_t,
        buffer: *mut u8,
        room: usize,
        needed: *mut usize,
    ) -> u32;
    pub fn icu_locale_get_numbering_system(
        locale: *const icu_locale_t,
        buffer: *mut u8,
        room: usize,
        needed: *mut usize,
    ) -> u32;
    pub fn icu_locale_version() -> u32;
}
