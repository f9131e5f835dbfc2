//! Locales that a program holds.

use crate::parts::{Attribute, Key, Language, Region, Script, Value, Variant};
use crate::{is_of_this_version, look_at_version, normalize, result, sys, text_result, Mode, ParseError, Priority, Refusal};
use std::alloc::{handle_alloc_error, Layout};
use std::borrow::Cow;
use std::cmp::Ordering;
use std::hash::{Hash, Hasher};
use std::str::{from_utf8, FromStr};
use std::{fmt, ptr};

/// A locale, such as `en-US-u-ca-buddhist`, with parts to read and to change.
///
/// The calls have the names of those of the crate `icu_locale_core`. A call that returns a `Result` returns an error of
/// the kind `Refusal::OutOfMemory` if it is out of memory: parsing, [`set_field`](Self::set_field),
/// [`set_other`](Self::set_other), [`set_private_extension`](Self::set_private_extension) and
/// [`set_transform_language`](Self::set_transform_language). Any other call that allocates, also
/// [`normalizing_eq`](Self::normalizing_eq), then ends as the collections of the standard library do, by
/// `handle_alloc_error`.
///
/// A `str` cannot be borrowed from a locale (`Borrow<str>`): it holds no text, and its order and its hash, by parts, are not
/// those of its text. So a table by locales is asked with a locale.
///
/// Any number of threads may read one locale, by `&`, by an `Arc` or in a `static`:
///
/// ```
/// use icu_locale_c::Locale;
/// use std::sync::{Arc, OnceLock};
///
/// static UND: Locale = Locale::UNKNOWN;
///
/// fn fallback() -> &'static Locale {
///     static PARSED: OnceLock<Locale> = OnceLock::new();
///     PARSED.get_or_init(|| "en-GB".parse().expect("it is a locale"))
/// }
///
/// let shared = Arc::new("en-US".parse::<Locale>().unwrap());
/// let reader = {
///     let shared = Arc::clone(&shared);
///     std::thread::spawn(move || shared.region().map(|it| it.to_string()))
/// };
/// assert_eq!(reader.join().unwrap().as_deref(), Some("US"));
/// assert!(UND.is_unknown() && fallback() < &UND && *shared > *fallback());
/// ```
pub struct Locale {
    held: sys::icu_locale_t,
}

// SAFETY: the memory of a handle is that of malloc, and no thread has a part in it.
unsafe impl Send for Locale {}

// SAFETY: what takes a `&Locale` passes its handle by `*const` alone, to calls that only read. Any number of these may
// use one handle, as the header says.
unsafe impl Sync for Locale {}

type Setting = unsafe extern "C" fn(*mut sys::icu_locale_t, *const u8, usize) -> u32;
type Reading = unsafe extern "C" fn(*const sys::icu_locale_t, *mut u8, usize, *mut usize) -> u32;
type ReadingAt = unsafe extern "C" fn(*const sys::icu_locale_t, usize, *mut u8, usize, *mut usize) -> u32;
type Counting = unsafe extern "C" fn(*const sys::icu_locale_t) -> usize;
type Clearing = unsafe extern "C" fn(*mut sys::icu_locale_t) -> u32;
type Having = unsafe extern "C" fn(*const sys::icu_locale_t, *const u8, usize) -> bool;

/// Whether a part that was to be changed was there. Parts that are passed were parsed, so none is refused.
fn was_there(status: u32) -> bool {
    match status {
        sys::DONE => true,
        sys::NOT_FOUND => false,
        sys::OUT_OF_MEMORY => handle_alloc_error(Layout::new::<[usize; 32]>()),
        other => panic!("{}", Refusal::UnknownStatus(other)),
    }
}

impl Locale {
    /// The unknown locale, `und`. It owns nothing, so it may also be a `static`.
    pub const UNKNOWN: Self = Locale {
        held: sys::icu_locale_t { at: ptr::null_mut() },
    };

    /// The handle, for a call that reads.
    fn handle(&self) -> *const sys::icu_locale_t {
        assert!(is_of_this_version(), "{}", Refusal::AnotherLibrary);
        &self.held
    }

    /// The handle, for a call that changes it.
    fn handle_to_change(&mut self) -> *mut sys::icu_locale_t {
        assert!(is_of_this_version(), "{}", Refusal::AnotherLibrary);
        &mut self.held
    }

    /// The locale that the text means.
    pub fn try_from_str(text: &str) -> Result<Self, ParseError> {
        Self::try_from_utf8(text.as_bytes())
    }

    /// The locale that the text means.
    pub fn try_from_utf8(text: &[u8]) -> Result<Self, ParseError> {
        look_at_version()?;
        let mut made = Self::UNKNOWN;
        // SAFETY: the handle is used here alone, and pointer and length are those of a slice.
        let status = unsafe { sys::icu_locale_parse(made.handle_to_change(), text.as_ptr(), text.len()) };
        text_result(status, Mode::Locale, text)?;
        Ok(made)
    }

    /// An empty locale after one setting.
    pub(crate) fn with(set: Setting, text: &[u8]) -> Result<Self, ParseError> {
        look_at_version()?;
        let mut made = Self::UNKNOWN;
        // SAFETY: the handle is used here alone, and pointer and length are those of a slice.
        result(unsafe { set(made.handle_to_change(), text.as_ptr(), text.len()) }, &[text])?;
        Ok(made)
    }

    /// An empty locale with one keyword. An error names this text.
    pub(crate) fn with_keyword(key: &[u8], value: &[u8], text: &[u8]) -> Result<Self, ParseError> {
        look_at_version()?;
        let mut made = Self::UNKNOWN;
        // SAFETY: as in `with`.
        let status = unsafe {
            sys::icu_locale_set_keyword(made.handle_to_change(), key.as_ptr(), key.len(), value.as_ptr(), value.len())
        };
        result(status, &[text])?;
        Ok(made)
    }

    /// The normal form of the text; the text itself if it is one.
    pub fn normalize(text: &str) -> Result<Cow<'_, str>, ParseError> {
        let normal = normalize(Mode::Locale, text)?;
        Ok(if normal == text {
            Cow::Borrowed(text)
        } else {
            Cow::Owned(normal)
        })
    }

    /// The normal form of the text; the text itself if it is one.
    pub fn normalize_utf8(text: &[u8]) -> Result<Cow<'_, str>, ParseError> {
        let normal = normalize(Mode::Locale, text)?;
        match from_utf8(text) {
            Ok(text) if text == normal => Ok(Cow::Borrowed(text)),
            _ => Ok(Cow::Owned(normal)),
        }
    }

    /// Whether this is `und`, with no other part.
    pub fn is_unknown(&self) -> bool {
        // SAFETY: the handle is only read.
        unsafe { sys::icu_locale_is_und(self.handle()) }
    }

    /// Whether the text of the locale means this locale. A keyword with a value such as `ab` has no such text.
    pub fn is_well_formed(&self) -> bool {
        // SAFETY: the handle is only read.
        unsafe { sys::icu_locale_is_well_formed(self.handle()) }
    }

    /// The byte order of the normal form against other bytes, as they stand.
    pub fn strict_cmp(&self, other: &[u8]) -> Ordering {
        // SAFETY: the handle is only read, and pointer and length are those of a slice.
        unsafe { sys::icu_locale_cmp_bytes(self.handle(), other.as_ptr(), other.len()) }.cmp(&0)
    }

    /// The order by parts, which is also that of `Ord`.
    pub fn total_cmp(&self, other: &Self) -> Ordering {
        // SAFETY: both handles are only read.
        unsafe { sys::icu_locale_cmp(self.handle(), other.handle()) }.cmp(&0)
    }

    /// Whether the text means this locale. Parsing the text can allocate.
    pub fn normalizing_eq(&self, other: &str) -> bool {
        self.normalizing_eq_utf8(other.as_bytes())
    }

    /// Whether the text means this locale.
    pub fn normalizing_eq_utf8(&self, other: &[u8]) -> bool {
        let mut same = 0;
        // SAFETY: the handle is only read. Pointer and length are those of a slice, and `same` lives here.
        was_there(unsafe { sys::icu_locale_eq_text(self.handle(), other.as_ptr(), other.len(), &mut same) });
        same == 1
    }

    /// The identifier alone, without extensions.
    pub fn base_name(&self) -> String {
        self.part(sys::icu_locale_get_base_name, str::to_owned)
    }

    /// The language.
    pub fn language(&self) -> Language {
        self.part(sys::icu_locale_get_language, Language::of_normal)
    }

    /// Sets the language.
    pub fn set_language(&mut self, language: Language) {
        self.set(sys::icu_locale_set_language, language.as_str());
    }

    /// The script.
    pub fn script(&self) -> Option<Script> {
        self.part(sys::icu_locale_get_script, |it| {
            (!it.is_empty()).then(|| Script::of_normal(it))
        })
    }

    /// Sets or clears the script.
    pub fn set_script(&mut self, script: Option<Script>) {
        self.set(sys::icu_locale_set_script, script.as_ref().map_or("", Script::as_str));
    }

    /// The region.
    pub fn region(&self) -> Option<Region> {
        self.part(sys::icu_locale_get_region, |it| {
            (!it.is_empty()).then(|| Region::of_normal(it))
        })
    }

    /// Sets or clears the region.
    pub fn set_region(&mut self, region: Option<Region>) {
        self.set(sys::icu_locale_set_region, region.as_ref().map_or("", Region::as_str));
    }

    /// The variants, ascending.
    pub fn variants(&self) -> Vec<Variant> {
        self.list(
            sys::icu_locale_variant_count,
            sys::icu_locale_get_variant,
            Variant::of_normal,
        )
    }

    /// Whether this variant is there.
    pub fn has_variant(&self, variant: &Variant) -> bool {
        self.has(sys::icu_locale_has_variant, variant.as_str())
    }

    /// Adds a variant, and returns whether it was not there.
    pub fn push_variant(&mut self, variant: Variant) -> bool {
        let is_new = !self.has_variant(&variant);
        self.set(sys::icu_locale_add_variant, variant.as_str());
        is_new
    }

    /// Removes a variant, and returns whether it was there.
    pub fn remove_variant(&mut self, variant: &Variant) -> bool {
        self.set(sys::icu_locale_remove_variant, variant.as_str())
    }

    /// Removes all variants.
    pub fn clear_variants(&mut self) {
        self.clear(sys::icu_locale_clear_variants);
    }

    /// The keywords of the extension `u`, by ascending key.
    pub fn keywords(&self) -> Vec<(Key, Value)> {
        let count = sys::icu_locale_keyword_count;
        let keys = self.list(count, sys::icu_locale_get_keyword_key, Key::of_normal);
        let values = self.list(count, sys::icu_locale_get_keyword_value, Value::of_normal);
        keys.into_iter().zip(values).collect()
    }

    /// The value of the keyword with this key.
    pub fn keyword(&self, key: &Key) -> Option<Value> {
        let key = key.as_str();
        let call = |handle, buffer, room, needed| {
            // SAFETY: `read` says so of the others; pointer and length are those of a slice.
            unsafe { sys::icu_locale_get_keyword(handle, key.as_ptr(), key.len(), buffer, room, needed) }
        };
        self.read(call, Value::of_normal)
    }

    /// Sets the value of a keyword, and returns the one that it had.
    pub fn set_keyword(&mut self, key: Key, value: Value) -> Option<Value> {
        let before = self.keyword(&key);
        let (key, value) = (key.as_str(), value.as_str());
        // SAFETY: the handle is used by this call alone, and pointers and lengths are those of slices.
        was_there(unsafe {
            sys::icu_locale_set_keyword(self.handle_to_change(), key.as_ptr(), key.len(), value.as_ptr(), value.len())
        });
        before
    }

    /// Removes the keyword with this key, and returns its value.
    pub fn remove_keyword(&mut self, key: &Key) -> Option<Value> {
        let before = self.keyword(key);
        self.set(sys::icu_locale_remove_keyword, key.as_str());
        before
    }

    /// Removes all keywords.
    pub fn clear_keywords(&mut self) {
        self.clear(sys::icu_locale_clear_keywords);
    }

    /// The attributes of the extension `u`, ascending.
    pub fn attributes(&self) -> Vec<Attribute> {
        self.list(
            sys::icu_locale_attribute_count,
            sys::icu_locale_get_attribute,
            Attribute::of_normal,
        )
    }

    /// Whether this attribute is there.
    pub fn has_attribute(&self, attribute: &Attribute) -> bool {
        self.has(sys::icu_locale_has_attribute, attribute.as_str())
    }

    /// Adds an attribute, and returns whether it was not there.
    pub fn push_attribute(&mut self, attribute: Attribute) -> bool {
        let is_new = !self.has_attribute(&attribute);
        self.set(sys::icu_locale_add_attribute, attribute.as_str());
        is_new
    }

    /// Removes an attribute, and returns whether it was there.
    pub fn remove_attribute(&mut self, attribute: &Attribute) -> bool {
        self.set(sys::icu_locale_remove_attribute, attribute.as_str())
    }

    /// Removes all attributes.
    pub fn clear_attributes(&mut self) {
        self.clear(sys::icu_locale_clear_attributes);
    }

    /// The identifier of the extension `t`, such as `de-Latn` in `en-t-de-latn`.
    pub fn transform_language(&self) -> Option<String> {
        self.optional(sys::icu_locale_get_transform_language, str::to_owned)
    }

    /// Sets the identifier of the extension `t`; an empty text removes it. Any other text than an identifier is refused
    /// as by [`check`](crate::check) for one.
    pub fn set_transform_language(&mut self, text: &str) -> Result<(), ParseError> {
        // SAFETY: the handle is used by this call alone, and pointer and length are those of a slice.
        let status = unsafe { sys::icu_locale_set_transform_language(self.handle_to_change(), text.as_ptr(), text.len()) };
        text_result(status, Mode::Identifier, text.as_bytes())
    }

    /// The fields of the extension `t`, by ascending key.
    pub fn fields(&self) -> Vec<(String, String)> {
        let keys = self.list(sys::icu_locale_field_count, sys::icu_locale_get_field_key, str::to_owned);
        let values = self.list(sys::icu_locale_field_count, sys::icu_locale_get_field_value, str::to_owned);
        keys.into_iter().zip(values).collect()
    }

    /// The value of the field with this key.
    pub fn field(&self, key: &str) -> Option<String> {
        let call = |handle, buffer, room, needed| {
            // SAFETY: `read` says so of the others; pointer and length are those of a slice.
            unsafe { sys::icu_locale_get_field(handle, key.as_ptr(), key.len(), buffer, room, needed) }
        };
        self.read(call, str::to_owned)
    }

    /// Sets the value of a field. A key that is none and a value that is none are an `InvalidExtension`.
    pub fn set_field(&mut self, key: &str, value: &str) -> Result<(), ParseError> {
        // SAFETY: the handle is used by this call alone, and pointers and lengths are those of slices.
        let status = unsafe {
            sys::icu_locale_set_field(self.handle_to_change(), key.as_ptr(), key.len(), value.as_ptr(), value.len())
        };
        let hyphen = if value.is_empty() { "" } else { "-" };
        result(status, &[key.as_bytes(), hyphen.as_bytes(), value.as_bytes()])
    }

    /// Removes the field with this key, and returns its value.
    pub fn remove_field(&mut self, key: &str) -> Option<String> {
        let before = self.field(key);
        self.set(sys::icu_locale_remove_field, key);
        before
    }

    /// Removes all fields.
    pub fn clear_fields(&mut self) {
        self.clear(sys::icu_locale_clear_fields);
    }

    /// The private extension with its `x`, such as `x-a-b`; empty if there is none.
    pub fn private_extension(&self) -> String {
        self.part(sys::icu_locale_get_private, str::to_owned)
    }

    /// Sets the private extension, with its `x`; an empty text removes it. Any other text than such an extension is an
    /// `InvalidExtension`.
    pub fn set_private_extension(&mut self, text: &str) -> Result<(), ParseError> {
        self.try_set(sys::icu_locale_set_private, text)
    }

    /// Whether there is another extension with this singleton, such as `a` in `en-a-foo`, in either case.
    pub fn has_other(&self, singleton: char) -> bool {
        let has = |byte| {
            // SAFETY: the handle is only read.
            unsafe { sys::icu_locale_has_other(self.handle(), byte) }
        };
        u8::try_from(singleton).is_ok_and(has)
    }

    /// The other extension with this singleton, such as `a-foo` in `en-a-foo`.
    pub fn other(&self, singleton: char) -> Option<String> {
        let byte = u8::try_from(singleton).ok()?;
        // SAFETY: `read` says so.
        let call =
            |handle, buffer, room, needed| unsafe { sys::icu_locale_get_other(handle, byte, buffer, room, needed) };
        self.read(call, str::to_owned)
    }

    /// Sets the extension that the text is, such as `a-foo`, and leaves those with another singleton. Any other text is
    /// an `InvalidExtension`.
    pub fn set_other(&mut self, text: &str) -> Result<(), ParseError> {
        self.try_set(sys::icu_locale_set_other, text)
    }

    /// Removes the other extension with this singleton, and returns whether it was there.
    pub fn remove_other(&mut self, singleton: char) -> bool {
        let remove = |byte| {
            // SAFETY: the handle is used by this call alone.
            was_there(unsafe { sys::icu_locale_remove_other(self.handle_to_change(), byte) })
        };
        u8::try_from(singleton).is_ok_and(remove)
    }

    /// Adds the attributes and keywords of the other locale. At a key of both, its value wins.
    pub fn extend_unicode(&mut self, from: &Self) {
        // SAFETY: the first handle is used by this call alone, and the other one is only read.
        was_there(unsafe { sys::icu_locale_extend_unicode(self.handle_to_change(), from.handle()) });
    }

    /// The text of the data locale, by which data is looked up: `en-US` of `en-GB-u-rg-uszzzz`, by region.
    pub fn data_locale(&self, priority: Priority) -> String {
        let number = priority.number();
        let call = |handle, buffer, room, needed| {
            // SAFETY: `read` says so.
            unsafe { sys::icu_locale_get_data_locale(handle, number, buffer, room, needed) }
        };
        self.read(call, str::to_owned).expect("each locale has a data locale")
    }

    /// The byte order of the text of the data locale against other bytes, as they stand.
    pub fn data_strict_cmp(&self, priority: Priority, other: &[u8]) -> Ordering {
        let mut order = 0;
        // SAFETY: the handle is only read. Pointer and length are those of a slice; `order` lives here.
        was_there(unsafe {
            sys::icu_locale_data_cmp_bytes(self.handle(), priority.number(), other.as_ptr(), other.len(), &mut order)
        });
        order.cmp(&0)
    }

    /// The order of the data locales of both by language, script, region part and variant.
    pub fn data_total_cmp(&self, priority: Priority, other: &Self) -> Ordering {
        let mut order = 0;
        // SAFETY: both handles are only read, and `order` lives here.
        was_there(unsafe {
            sys::icu_locale_data_cmp(self.handle(), other.handle(), priority.number(), &mut order)
        });
        order.cmp(&0)
    }

    /// The calendar of the keyword `ca`, as formatters parse it: `islamic-civil` from `en-u-ca-islamicc`.
    pub fn calendar_algorithm(&self) -> Option<Value> {
        self.optional(sys::icu_locale_get_calendar_algorithm, Value::of_normal)
    }

    /// The hour cycle of the keyword `hc`, such as `h12`.
    pub fn hour_cycle(&self) -> Option<Value> {
        self.optional(sys::icu_locale_get_hour_cycle, Value::of_normal)
    }

    /// The numbering system of the keyword `nu`, such as `latn`.
    pub fn numbering_system(&self) -> Option<Value> {
        self.optional(sys::icu_locale_get_numbering_system, Value::of_normal)
    }

    fn try_set(&mut self, call: Setting, text: &str) -> Result<(), ParseError> {
        // SAFETY: the handle is used by this call alone, and pointer and length are those of a slice.
        result(unsafe { call(self.handle_to_change(), text.as_ptr(), text.len()) }, &[text.as_bytes()])
    }

    fn set(&mut self, call: Setting, text: &str) -> bool {
        // SAFETY: the handle is used by this call alone, and pointer and length are those of a slice.
        was_there(unsafe { call(self.handle_to_change(), text.as_ptr(), text.len()) })
    }

    fn clear(&mut self, call: Clearing) {
        // SAFETY: the handle is used by this call alone.
        was_there(unsafe { call(self.handle_to_change()) });
    }

    fn has(&self, call: Having, text: &str) -> bool {
        // SAFETY: the handle is only read, and pointer and length are those of a slice.
        unsafe { call(self.handle(), text.as_ptr(), text.len()) }
    }

    /// A part, if it is there.
    fn optional<R>(&self, call: Reading, then: impl FnOnce(&str) -> R) -> Option<R> {
        // SAFETY: `read` says so.
        self.read(|handle, buffer, room, needed| unsafe { call(handle, buffer, room, needed) }, then)
    }

    /// A part that is always there.
    fn part<R>(&self, call: Reading, then: impl FnOnce(&str) -> R) -> R {
        self.optional(call, then).expect("the part is there")
    }

    fn list<R>(&self, count: Counting, call: ReadingAt, then: impl Fn(&str) -> R) -> Vec<R> {
        // SAFETY: the handle is only read.
        let count = unsafe { count(self.handle()) };
        let at = |index| {
            // SAFETY: `read` says so.
            let call = |handle, buffer, room, needed| unsafe { call(handle, index, buffer, room, needed) };
            self.read(call, &then).expect("the part is there")
        };
        (0..count).map(at).collect()
    }

    /// What a call writes to a buffer, if there is such a part. The call only reads the handle, the buffer has that room,
    /// and `needed` lives here.
    fn read<R>(
        &self,
        call: impl Fn(*const sys::icu_locale_t, *mut u8, usize, *mut usize) -> u32,
        then: impl FnOnce(&str) -> R,
    ) -> Option<R> {
        let (mut small, mut large, mut needed) = ([0; 64], Vec::new(), 0);
        let mut status = call(self.handle(), small.as_mut_ptr(), small.len(), &mut needed);
        if status == sys::BUFFER_TOO_SMALL {
            large = vec![0; needed];
            status = call(self.handle(), large.as_mut_ptr(), large.len(), &mut needed);
        }
        let buffer = if large.is_empty() { &small[..] } else { &large[..] };
        was_there(status).then(|| then(from_utf8(&buffer[..needed]).expect("a part is ASCII")))
    }
}

impl Drop for Locale {
    fn drop(&mut self) {
        // SAFETY: the handle is used by this call alone, which is the last.
        unsafe { sys::icu_locale_free(&mut self.held) }
    }
}

impl Default for Locale {
    fn default() -> Self {
        Self::UNKNOWN
    }
}

impl Clone for Locale {
    fn clone(&self) -> Self {
        let mut made = Self::UNKNOWN;
        made.clone_from(self);
        made
    }

    fn clone_from(&mut self, from: &Self) {
        // SAFETY: the first handle is used by this call alone, and the other one is only read.
        was_there(unsafe { sys::icu_locale_copy(self.handle_to_change(), from.handle()) });
    }
}

impl From<Language> for Locale {
    fn from(language: Language) -> Self {
        let mut made = Self::UNKNOWN;
        made.set_language(language);
        made
    }
}

impl From<(Language, Option<Script>, Option<Region>)> for Locale {
    fn from((language, script, region): (Language, Option<Script>, Option<Region>)) -> Self {
        let mut made = Self::from(language);
        made.set_script(script);
        made.set_region(region);
        made
    }
}

/// Sets each of the keywords: of two with one key the later one counts.
impl Extend<(Key, Value)> for Locale {
    fn extend<I: IntoIterator<Item = (Key, Value)>>(&mut self, keywords: I) {
        for (key, value) in keywords {
            self.set_keyword(key, value);
        }
    }
}

/// Adds the variants.
impl Extend<Variant> for Locale {
    fn extend<I: IntoIterator<Item = Variant>>(&mut self, variants: I) {
        for variant in variants {
            self.push_variant(variant);
        }
    }
}

/// Adds the attributes.
impl Extend<Attribute> for Locale {
    fn extend<I: IntoIterator<Item = Attribute>>(&mut self, attributes: I) {
        for attribute in attributes {
            self.push_attribute(attribute);
        }
    }
}

/// The unknown locale with these keywords, such as `und-u-ca-buddhist`.
impl FromIterator<(Key, Value)> for Locale {
    fn from_iter<I: IntoIterator<Item = (Key, Value)>>(keywords: I) -> Self {
        let mut made = Self::UNKNOWN;
        made.extend(keywords);
        made
    }
}

impl FromStr for Locale {
    type Err = ParseError;

    fn from_str(text: &str) -> Result<Self, ParseError> {
        Self::try_from_str(text)
    }
}

/// What the text means.
impl TryFrom<&str> for Locale {
    type Error = ParseError;

    fn try_from(text: &str) -> Result<Self, ParseError> {
        Self::try_from_str(text)
    }
}

/// What the text means.
impl TryFrom<String> for Locale {
    type Error = ParseError;

    fn try_from(text: String) -> Result<Self, ParseError> {
        Self::try_from_str(&text)
    }
}

/// The normal form.
impl From<Locale> for String {
    fn from(locale: Locale) -> Self {
        locale.to_string()
    }
}

/// It prints the normal form, and honors the width and the alignment that are asked for.
impl fmt::Display for Locale {
    fn fmt(&self, f: &mut fmt::Formatter<'_>) -> fmt::Result {
        self.part(sys::icu_locale_to_string, |text| f.pad(text))
    }
}

impl fmt::Debug for Locale {
    fn fmt(&self, f: &mut fmt::Formatter<'_>) -> fmt::Result {
        self.part(sys::icu_locale_to_string, |text| {
            f.debug_tuple("Locale").field(&text).finish()
        })
    }
}

impl PartialEq for Locale {
    fn eq(&self, other: &Self) -> bool {
        // SAFETY: both handles are only read.
        unsafe { sys::icu_locale_eq(self.handle(), other.handle()) }
    }
}

impl Eq for Locale {}

/// Whether the normal form is this text, as it stands: `en-US` is equal to `"en-US"`, and not to `"EN-us"`.
/// [`normalizing_eq`](Locale::normalizing_eq) is whether a text means the locale.
impl PartialEq<str> for Locale {
    fn eq(&self, other: &str) -> bool {
        self.strict_cmp(other.as_bytes()).is_eq()
    }
}

/// Whether the normal form is this text, as it stands.
impl PartialEq<&str> for Locale {
    fn eq(&self, other: &&str) -> bool {
        *self == **other
    }
}

/// The order by parts.
impl Ord for Locale {
    fn cmp(&self, other: &Self) -> Ordering {
        self.total_cmp(other)
    }
}

impl PartialOrd for Locale {
    fn partial_cmp(&self, other: &Self) -> Option<Ordering> {
        Some(self.cmp(other))
    }
}

impl Hash for Locale {
    fn hash<H: Hasher>(&self, state: &mut H) {
        // SAFETY: the handle is only read.
        state.write_u64(unsafe { sys::icu_locale_hash(self.handle()) });
    }
}

#[cfg(test)]
mod tests {
    use super::*;
    use std::collections::{BTreeSet, HashSet};

    fn locale(text: &str) -> Locale {
        text.parse().unwrap()
    }

    #[test]
    fn parts_are_read_and_set() {
        let mut it = locale("EN-latn-us-POSIX-u-attr-CA-Buddhist-kn");
        assert_eq!(it.to_string(), "en-Latn-US-posix-u-attr-ca-buddhist-kn");
        assert_eq!(
            (it.language().as_str(), it.base_name().as_str()),
            ("en", "en-Latn-US-posix")
        );
        assert_eq!(it.script().unwrap().as_str(), "Latn");
        assert_eq!(it.region().unwrap().to_string(), "US");
        it.set_region("419".parse().ok());
        it.set_script(None);
        it.set_language(Language::UNKNOWN);
        assert!(it.push_variant("MACOS".parse().unwrap()) && !it.push_variant("macos".parse().unwrap()));
        assert_eq!(
            it.variants().iter().map(Variant::as_str).collect::<Vec<_>>(),
            ["macos", "posix"]
        );
        assert!(it.remove_variant(&"posix".parse().unwrap()) && !it.remove_variant(&"posix".parse().unwrap()));
        assert_eq!(it.to_string(), "und-419-macos-u-attr-ca-buddhist-kn");
        let (ca, kn) = ("ca".parse::<Key>().unwrap(), "KN".parse::<Key>().unwrap());
        assert_eq!(it.keyword(&kn), Some(Value::default()));
        assert_eq!(
            it.set_keyword(ca, "islamic-civil".parse().unwrap()).unwrap().as_str(),
            "buddhist"
        );
        assert_eq!(it.remove_keyword(&kn), Some(Value::default()));
        assert_eq!(
            (it.remove_keyword(&kn), it.keyword(&ca).unwrap().subtag_count()),
            (None, 2)
        );
        assert!(it.push_attribute("zzz".parse().unwrap()) && it.has_attribute(&"attr".parse().unwrap()));
        assert!(it.remove_attribute(&"attr".parse().unwrap()) && !it.remove_attribute(&"attr".parse().unwrap()));
        assert_eq!(it.to_string(), "und-419-macos-u-zzz-ca-islamic-civil");
        it.clear_keywords();
        it.clear_attributes();
        it.clear_variants();
        it.set_region(None);
        assert!(it.is_unknown() && it == Locale::default() && it.is_well_formed());
    }

    #[test]
    fn refusals_have_names() {
        assert_eq!(Locale::try_from_str("e").unwrap_err(), Refusal::InvalidLanguage);
        assert_eq!(
            Locale::try_from_utf8(b"en-\xff\xff").unwrap_err(),
            Refusal::InvalidSubtag
        );
        assert_eq!(Language::try_from_str("").unwrap_err(), Refusal::InvalidLanguage);
        assert_eq!(Language::try_from_str("en-US").unwrap_err(), Refusal::InvalidLanguage);
        assert_eq!(Script::try_from_str("").unwrap_err(), Refusal::InvalidSubtag);
        assert_eq!(Region::try_from_str("USA").unwrap_err(), Refusal::InvalidSubtag);
        assert_eq!(Variant::try_from_str("pos").unwrap_err(), Refusal::InvalidSubtag);
        assert_eq!(Key::try_from_str("c1").unwrap_err(), Refusal::InvalidExtension);
        assert_eq!(Key::try_from_str("").unwrap_err(), Refusal::InvalidExtension);
        assert_eq!(Attribute::try_from_str("ab").unwrap_err(), Refusal::InvalidExtension);
        assert_eq!(Value::try_from_str("a").unwrap_err(), Refusal::InvalidSubtag);
        assert_eq!(Value::try_from_str("TRUE").unwrap(), Value::default());
        assert_eq!("posix".parse::<Variant>().unwrap().as_str().len(), 5);
        assert_eq!("ABCDEFGH".parse::<Variant>().unwrap().as_str(), "abcdefgh");
    }

    #[test]
    fn comparisons_agree() {
        let (one, other) = (locale("en-US"), locale("en-us"));
        assert!(one == other && one.total_cmp(&other) == Ordering::Equal && one <= one && one == one);
        assert_eq!(one.strict_cmp(b"en-US"), Ordering::Equal);
        assert_eq!(one.strict_cmp(b""), Ordering::Greater);
        assert!(one.normalizing_eq("EN-us") && !one.normalizing_eq("en") && !one.normalizing_eq("e"));
        let all = ["en-US", "EN-us", "de", "und", "en-posix"];
        assert_eq!(all.iter().map(|it| locale(it)).collect::<HashSet<_>>().len(), 4);
        let ordered: Vec<String> = all
            .iter()
            .map(|it| locale(it))
            .collect::<BTreeSet<_>>()
            .iter()
            .map(Locale::to_string)
            .collect();
        assert_eq!(ordered, ["de", "en-posix", "en-US", "und"]);
        assert!(
            "en".parse::<Language>().unwrap() < Language::UNKNOWN
                && "en".parse::<Language>().unwrap() < "eng".parse().unwrap()
        );
    }

    #[test]
    fn a_clone_is_another() {
        let text = "en-aaaaa-bbbbb-ccccc-ddddd-eeeee-t-de-m0-abc-abcdefgh-x-a-b-c-d-e-f";
        let one = locale(text);
        let mut other = one.clone();
        other.set_region("GB".parse().ok());
        assert!(one.region().is_none() && one != other);
        other.clone_from(&Locale::default());
        assert!(other.is_unknown());
        assert_eq!(one.to_string(), text);
    }

    #[test]
    fn printing_honors_the_width() {
        assert_eq!(
            format!(
                "{:>8}|{:<4}|{:^4}|",
                locale("en-us"),
                locale("de").language(),
                Value::default()
            ),
            "   en-US|de  |    |"
        );
        assert_eq!(
            format!("{:?} {:?}", locale("en"), Language::UNKNOWN),
            "Locale(\"en\") Language(\"und\")"
        );
        assert_eq!(Locale::normalize("en-US").unwrap(), Cow::Borrowed("en-US"));
        assert_eq!(Locale::normalize_utf8(b"EN").unwrap(), Cow::<str>::Owned("en".into()));
    }

    #[test]
    fn a_locale_goes_to_a_thread() {
        let it = locale("EN-x-a-b-c-d-e-f-g-h");
        let printed = std::thread::spawn(move || it.to_string()).join().unwrap();
        assert_eq!(printed, "en-x-a-b-c-d-e-f-g-h");
    }

    #[test]
    fn threads_read_one_locale() {
        static UND: Locale = Locale::UNKNOWN;
        let text = "en-Latn-GB-posix-a-foo-t-de-m0-din-u-aaa-ca-buddhist-rg-uszzzz-x-p-q";
        let (one, other) = (locale(text), locale(text));
        std::thread::scope(|scope| {
            for _ in 0..8 {
                scope.spawn(|| (0..1000).for_each(|_| read_each_part(&one, &other, text)));
            }
        });
        assert!(UND.is_unknown() && one == *text);
    }

    fn read_each_part(one: &Locale, other: &Locale, text: &str) {
        assert!(one == other && one == one && one.total_cmp(one).is_eq() && one.normalizing_eq(text));
        assert_eq!(one.clone().to_string(), text);
        assert_eq!((one.language().as_str(), one.region().unwrap().as_str()), ("en", "GB"));
        assert_eq!(one.keywords().len() + one.fields().len() + one.variants().len(), 4);
        assert_eq!(one.data_locale(Priority::Region), "en-Latn-US-posix");
        assert!(one.data_total_cmp(Priority::Region, other).is_eq());
        let mut extended = Locale::UNKNOWN;
        extended.extend_unicode(one);
        assert_eq!(extended, "und-u-aaa-ca-buddhist-rg-uszzzz");
    }

    #[test]
    fn texts_become_locales_and_are_compared() {
        let it = Locale::try_from("EN-us").unwrap();
        assert_eq!(Ok(it.clone()), Locale::try_from("en-US".to_owned()));
        assert!(it == "en-US" && it == *"en-US" && it != "EN-us" && it != "en" && it != *"en-USA");
        assert_eq!(Locale::try_from("en-").unwrap_err(), Refusal::InvalidSubtag);
        assert_eq!(String::from(locale("EN-u-ca-roc")), "en-u-ca-roc");
    }

    #[test]
    fn parts_are_collected() {
        let mut it: Locale = locale("en-u-ca-roc-kn").keywords().into_iter().collect();
        assert_eq!(it, "und-u-ca-roc-kn");
        it.extend(locale("de-u-hc-h12-ca-buddhist").keywords());
        it.extend(locale("de-posix-macos").variants());
        it.extend(locale("de-u-foo-bar").attributes().into_iter().rev());
        assert_eq!(it, "und-macos-posix-u-bar-foo-ca-buddhist-hc-h12-kn");
        let pairs = [("ca", "roc"), ("ca", "japanese")].map(|(key, value)| (key.parse().unwrap(), value.parse().unwrap()));
        assert_eq!(Locale::from_iter(pairs), "und-u-ca-japanese");
    }

    #[test]
    fn other_extensions_are_read_and_set() {
        let mut it = locale("en-a-foo-u-ca-islamicc-hc-h12-nu-latn");
        assert!(it.has_other('A') && !it.has_other('b') && !it.has_other('u') && !it.has_other('\u{161}'));
        assert_eq!((it.other('a').as_deref(), it.other('u')), (Some("a-foo"), None));
        it.set_other("B-Foo-bar").unwrap();
        assert_eq!(it.set_other("u-foo").unwrap_err(), Refusal::InvalidExtension);
        assert_eq!(it.set_other("").unwrap_err(), Refusal::InvalidExtension);
        assert!(it.remove_other('a') && !it.remove_other('a') && !it.remove_other('\u{161}'));
        assert_eq!(it.to_string(), "en-b-foo-bar-u-ca-islamicc-hc-h12-nu-latn");
        let read = |value: Option<Value>| value.map(|it| it.to_string());
        assert_eq!(read(it.calendar_algorithm()).as_deref(), Some("islamic-civil"));
        assert_eq!(read(it.hour_cycle()).as_deref(), Some("h12"));
        assert_eq!(read(it.numbering_system()).as_deref(), Some("latn"));
        assert_eq!(locale("en-u-hc-h25").hour_cycle(), None);
    }

    #[test]
    fn unicode_extensions_are_merged() {
        let mut it = locale("en-u-foo-ca-roc-hc-h12");
        it.extend_unicode(&locale("de-u-bar-ca-buddhist"));
        assert_eq!(it.to_string(), "en-u-bar-foo-ca-buddhist-hc-h12");
        it.set_field("m0", "din").unwrap();
        assert_eq!((it.remove_field("M0").as_deref(), it.remove_field("m0")), (Some("din"), None));
    }

    #[test]
    fn data_locales_are_of_two_kinds() {
        let it = locale("en-GB-posix-u-rg-uszzzz-sd-gbeng");
        assert_eq!(it.data_locale(Priority::Language), "en-GB-posix-u-sd-gbeng");
        assert_eq!(it.data_locale(Priority::Region), "en-US-posix");
        assert_eq!(it.data_strict_cmp(Priority::Region, b"en-US-posix"), Ordering::Equal);
        assert_eq!(it.data_strict_cmp(Priority::Language, b""), Ordering::Greater);
        let other = locale("en-US-posix-x-foo");
        assert_eq!(it.data_total_cmp(Priority::Region, &other), Ordering::Equal);
        assert_eq!(it.data_total_cmp(Priority::Language, &other), Ordering::Less);
        assert_eq!(it.data_total_cmp(Priority::Language, &it), Ordering::Equal);
    }

    #[test]
    fn a_locale_is_made_of_parts() {
        let parts = ("sr".parse().unwrap(), "LATN".parse().ok(), "rs".parse().ok());
        assert_eq!(Locale::from(parts).to_string(), "sr-Latn-RS");
        assert_eq!(Locale::from(Language::default()), Locale::default());
    }
}
