//! Unicode locale identifiers, such as `en-US-u-ca-buddhist`: normalized, checked and compared.
//!
//! A [`Locale`] has parts to read and to change:
//!
//! ```
//! use icu_locale_c::{extensions::unicode::{Key, Value}, subtags::Region, Locale};
//!
//! # fn main() -> Result<(), icu_locale_c::ParseError> {
//! let mut locale: Locale = "EN-us".parse()?;
//! locale.set_region(Some("GB".parse::<Region>()?));
//! locale.set_keyword("ca".parse::<Key>()?, "buddhist".parse::<Value>()?);
//! assert_eq!(locale.to_string(), "en-GB-u-ca-buddhist");
//! # Ok(())
//! # }
//! ```
//!
//! The functions here go from text to text:
//!
//! ```
//! use icu_locale_c::{normalize, Mode, Refusal};
//!
//! assert_eq!(normalize(Mode::Locale, "EN-us-u-ca-Buddhist").unwrap(), "en-US-u-ca-buddhist");
//!
//! let error = normalize(Mode::Locale, "en-US-foo").unwrap_err();
//! assert_eq!(error.kind(), Refusal::InvalidSubtag);
//! assert_eq!(
//!     error.to_string(),
//!     "Invalid subtag: 'en-US-foo' at 6..9: a variant or an extension may stand here"
//! );
//! ```
//!
//! With the feature `serde` a [`Locale`], and each of its parts, is written as its normal form, and read as by parsing.
//!
//! The work is done by the library of `include/icu_locale.h`, whose every function is proved. This wrapper is not
//! proved.

use std::cmp::Ordering;
use std::sync::OnceLock;

mod advice;
#[cfg(feature = "serde")]
mod by_serde;
mod error;
mod locale;
mod many;
mod parts;
pub mod sys;
mod texts;

/// The programs of the page, which are tried as the examples here are.
#[cfg(doctest)]
#[doc = include_str!("../README.md")]
struct Readme;

pub use advice::{Expected, Hint, PieceKind};
use error::{result, text_result};
pub use error::{ParseError, Refusal};
pub use locale::Locale;
pub use many::{normalize_many, NormalTexts};
pub use texts::{
    base_name_of, clean, keyword_of, language_of, matches, parent, region_of, script_of, variants_of,
};

/// Parts of an identifier.
pub mod subtags {
    pub use crate::parts::{Language, Region, Script, Variant};
}

/// Parts of extensions.
pub mod extensions {
    /// Parts of the extension `u`.
    pub mod unicode {
        pub use crate::parts::{Attribute, Key, Value};
    }
}

/// How a text is parsed.
#[derive(Clone, Copy, Debug, PartialEq, Eq, Hash)]
pub enum Mode {
    /// A language identifier, as `en-Latn-US-posix`.
    Identifier,
    /// A locale, an identifier with extensions, as `en-US-u-ca-buddhist`.
    Locale,
    /// A data locale: language, script, region or subdivision, and one variant.
    DataLocale,
}

impl Mode {
    fn number(self) -> u32 {
        match self {
            Mode::Identifier => sys::IDENTIFIER,
            Mode::Locale => sys::LOCALE,
            Mode::DataLocale => sys::DATA_LOCALE,
        }
    }
}

/// Of which region a data locale is.
#[derive(Clone, Copy, Debug, PartialEq, Eq, Hash)]
pub enum Priority {
    /// Of the locale's own region, and its keyword `sd`.
    Language,
    /// Of the keyword `rg`, if it is there and readable, and else as by language.
    Region,
}

impl Priority {
    fn number(self) -> u32 {
        match self {
            Priority::Language => sys::BY_LANGUAGE,
            Priority::Region => sys::BY_REGION,
        }
    }
}

/// Whether the linked library was made for the header of this wrapper. It is asked once.
pub fn is_of_this_version() -> bool {
    static IS_SAME: OnceLock<bool> = OnceLock::new();
    // SAFETY: it takes nothing.
    *IS_SAME.get_or_init(|| unsafe { sys::icu_locale_version() == sys::VERSION })
}

fn look_at_version() -> Result<(), ParseError> {
    if is_of_this_version() {
        Ok(())
    } else {
        Err(ParseError::of(Refusal::AnotherLibrary, &[]))
    }
}

/// The normal form of the text.
pub fn normalize(mode: Mode, text: impl AsRef<[u8]>) -> Result<String, ParseError> {
    look_at_version()?;
    let text = text.as_ref();
    // A normal form is at most four bytes longer than its text.
    let mut normal = vec![0; text.len() + 4];
    let mut needed = 0;
    // SAFETY: pointers and lengths are those of slices, and what is written to is borrowed alone.
    let status = unsafe {
        sys::icu_locale_normalize(
            mode.number(),
            text.as_ptr(),
            text.len(),
            normal.as_mut_ptr(),
            normal.len(),
            &mut needed,
        )
    };
    text_result(status, mode, text)?;
    normal.truncate(needed);
    String::from_utf8(normal).map_err(|_| ParseError::of(Refusal::AnotherLibrary, &[]))
}

/// Whether the text has a meaning, or why not.
pub fn check(mode: Mode, text: impl AsRef<[u8]>) -> Result<(), ParseError> {
    look_at_version()?;
    let text = text.as_ref();
    // SAFETY: pointer and length are those of a slice.
    text_result(unsafe { sys::icu_locale_check(mode.number(), text.as_ptr(), text.len()) }, mode, text)
}

type Comparing<T> = unsafe extern "C" fn(u32, *const u8, usize, *const u8, usize, *mut T) -> u32;

/// The status of a call on two texts, and what it writes.
fn compared<T: Default>(call: Comparing<T>, mode: Mode, text: &[u8], other: &[u8]) -> Result<(u32, T), ParseError> {
    look_at_version()?;
    let mut answer = T::default();
    // SAFETY: pointers and lengths are those of slices, and what is written to lives here.
    let status =
        unsafe { call(mode.number(), text.as_ptr(), text.len(), other.as_ptr(), other.len(), &mut answer) };
    Ok((status, answer))
}

/// The byte order of the text's normal form against other bytes, as they stand.
pub fn strict_cmp(mode: Mode, text: impl AsRef<[u8]>, other: impl AsRef<[u8]>) -> Result<Ordering, ParseError> {
    let text = text.as_ref();
    let (status, order) = compared(sys::icu_locale_strict_cmp, mode, text, other.as_ref())?;
    text_result(status, mode, text)?;
    Ok(order.cmp(&0))
}

/// Whether both texts have the same meaning. Only the first is refused.
pub fn normalizing_eq(mode: Mode, text: impl AsRef<[u8]>, other: impl AsRef<[u8]>) -> Result<bool, ParseError> {
    let text = text.as_ref();
    let (status, same) = compared(sys::icu_locale_normalizing_eq, mode, text, other.as_ref())?;
    text_result(status, mode, text)?;
    Ok(same == 1)
}

/// The byte order of the normal forms of both texts.
pub fn compare(mode: Mode, text: impl AsRef<[u8]>, other: impl AsRef<[u8]>) -> Result<Ordering, ParseError> {
    let (text, other) = (text.as_ref(), other.as_ref());
    let (status, order) = compared(sys::icu_locale_compare, mode, text, other)?;
    if status != sys::DONE {
        // The first text is refused first.
        text_result(status, mode, if check(mode, text).is_err() { text } else { other })?;
    }
    Ok(order.cmp(&0))
}
