//! Parts of texts, without a locale in memory; ranges; and names that are cleaned.

use crate::error::{result, text_result};
use crate::{check, look_at_version, sys, Mode, ParseError, Refusal};

type Telling = unsafe extern "C" fn(u32, *const u8, usize, *mut u8, usize, *mut usize) -> u32;

/// The text that a call writes into a room of so many bytes, with its status.
fn written(room: usize, call: impl FnOnce(*mut u8, usize, &mut usize) -> u32) -> Result<(u32, String), ParseError> {
    look_at_version()?;
    let mut bytes = vec![0; room];
    let mut needed = 0;
    let status = call(bytes.as_mut_ptr(), room, &mut needed);
    bytes.truncate(needed);
    let text = String::from_utf8(bytes).map_err(|_| ParseError::of(Refusal::AnotherLibrary, &[]))?;
    Ok((status, text))
}

/// The part that a call gives, if there is one.
fn told(call: Telling, mode: Mode, text: &[u8]) -> Result<Option<String>, ParseError> {
    // A part is at most four bytes longer than its text, and `und` is one byte longer than `en`.
    let (status, part) = written(text.len() + 4, |at, room, needed| {
        // SAFETY: pointers and lengths are those of slices, and what is written to is borrowed alone.
        unsafe { call(mode.number(), text.as_ptr(), text.len(), at, room, needed) }
    })?;
    if status == sys::NOT_FOUND {
        return Ok(None);
    }
    text_result(status, mode, text)?;
    Ok(Some(part))
}

/// The part that each text has.
fn always(call: Telling, mode: Mode, text: &[u8]) -> Result<String, ParseError> {
    told(call, mode, text)?.ok_or(ParseError::of(Refusal::UnknownStatus(sys::NOT_FOUND), &[]))
}

/// The identifier of what the text means, without extensions.
pub fn base_name_of(mode: Mode, text: impl AsRef<[u8]>) -> Result<String, ParseError> {
    always(sys::icu_locale_base_name_of, mode, text.as_ref())
}

/// The language of what the text means; `und` if it is unknown.
///
/// ```
/// use icu_locale_c::{language_of, parent, Mode};
///
/// assert_eq!(language_of(Mode::Locale, "EN-us-u-ca-buddhist").unwrap(), "en");
/// assert_eq!(parent(Mode::Locale, "EN-us").unwrap().as_deref(), Some("en"));
/// ```
pub fn language_of(mode: Mode, text: impl AsRef<[u8]>) -> Result<String, ParseError> {
    always(sys::icu_locale_language_of, mode, text.as_ref())
}

/// The script of what the text means, if there is one.
pub fn script_of(mode: Mode, text: impl AsRef<[u8]>) -> Result<Option<String>, ParseError> {
    Ok(told(sys::icu_locale_script_of, mode, text.as_ref())?.filter(|it| !it.is_empty()))
}

/// The region of what the text means, if there is one.
pub fn region_of(mode: Mode, text: impl AsRef<[u8]>) -> Result<Option<String>, ParseError> {
    Ok(told(sys::icu_locale_region_of, mode, text.as_ref())?.filter(|it| !it.is_empty()))
}

/// The variants of what the text means, ascending, with hyphens between them; empty if there are none.
pub fn variants_of(mode: Mode, text: impl AsRef<[u8]>) -> Result<String, ParseError> {
    always(sys::icu_locale_variants_of, mode, text.as_ref())
}

/// The value of the keyword with this key, in any case, if there is one. A key that stands alone has an empty value.
pub fn keyword_of(
    mode: Mode,
    text: impl AsRef<[u8]>,
    key: impl AsRef<[u8]>,
) -> Result<Option<String>, ParseError> {
    let (text, key) = (text.as_ref(), key.as_ref());
    let (status, value) = written(text.len() + 4, |at, room, needed| {
        // SAFETY: pointers and lengths are those of slices, and what is written to is borrowed alone.
        unsafe {
            sys::icu_locale_keyword_of(
                mode.number(),
                text.as_ptr(),
                text.len(),
                key.as_ptr(),
                key.len(),
                at,
                room,
                needed,
            )
        }
    })?;
    if status == sys::NOT_FOUND {
        return Ok(None);
    }
    text_result(status, mode, text)?;
    Ok(Some(value))
}

/// The parent: without extensions; or else without the last variant, the region, the script; or `und`, which has none.
pub fn parent(mode: Mode, text: impl AsRef<[u8]>) -> Result<Option<String>, ParseError> {
    told(sys::icu_locale_parent, mode, text.as_ref())
}

/// Whether the range stands for the locale, both in any spelling: the extended filtering of RFC 4647, with `und` for its
/// wildcard.
///
/// ```
/// use icu_locale_c::matches;
///
/// assert!(matches("zh-hant-TW", "zh-TW").unwrap());
/// assert!(!matches("en-x-us", "en-US").unwrap());
/// ```
pub fn matches(text: impl AsRef<[u8]>, range: impl AsRef<[u8]>) -> Result<bool, ParseError> {
    look_at_version()?;
    let (text, range) = (text.as_ref(), range.as_ref());
    let mut same = 0;
    // SAFETY: pointers and lengths are those of slices, and what is written to lives here.
    let status =
        unsafe { sys::icu_locale_matches(text.as_ptr(), text.len(), range.as_ptr(), range.len(), &mut same) };
    if status != sys::DONE {
        // The text is refused first.
        text_result(status, Mode::Locale, if check(Mode::Locale, text).is_err() { text } else { range })?;
    }
    Ok(same == 1)
}

/// What the name of a locale, as files and systems write it, is in the form of UTS #35. Nothing is refused.
///
/// ```
/// use icu_locale_c::clean;
///
/// assert_eq!(clean("sr_RS.UTF-8@latin").unwrap(), "sr-Latn-RS");
/// ```
pub fn clean(name: &str) -> Result<String, ParseError> {
    let name = name.as_bytes();
    // It is at most nine bytes longer.
    let (status, cleaned) = written(name.len() + 9, |at, room, needed| {
        // SAFETY: pointers and lengths are those of slices, and what is written to is borrowed alone.
        unsafe { sys::icu_locale_clean(name.as_ptr(), name.len(), at, room, needed) }
    })?;
    result(status, &[name])?;
    Ok(cleaned)
}
