//! Parts of locales: subtags and values, each in its normal form. The library parses them, by setting them in an empty
//! locale.

use crate::locale::Locale;
use crate::{sys, ParseError, Refusal};
use std::cmp::Ordering;
use std::fmt;
use std::str::FromStr;

/// At most eight bytes of ASCII, with zeros behind.
#[derive(Clone, Copy, PartialEq, Eq, PartialOrd, Ord, Hash)]
pub(crate) struct Short([u8; 8]);

impl Short {
    const UND: Short = Short(*b"und\0\0\0\0\0");

    fn of(text: &str) -> Short {
        let mut bytes = [0; 8];
        bytes[..text.len()].copy_from_slice(text.as_bytes());
        Short(bytes)
    }

    fn as_str(&self) -> &str {
        let length = self.0.iter().position(|it| *it == 0).unwrap_or(8);
        std::str::from_utf8(&self.0[..length]).expect("a subtag is ASCII")
    }
}

/// What has `try_from_str` and `as_str` is parsed and printed by them.
macro_rules! text {
    ($name:ident) => {
        impl FromStr for $name {
            type Err = ParseError;

            fn from_str(text: &str) -> Result<Self, ParseError> {
                Self::try_from_str(text)
            }
        }

        /// It honors the width and the alignment that are asked for.
        impl fmt::Display for $name {
            fn fmt(&self, f: &mut fmt::Formatter<'_>) -> fmt::Result {
                f.pad(self.as_str())
            }
        }

        impl fmt::Debug for $name {
            fn fmt(&self, f: &mut fmt::Formatter<'_>) -> fmt::Result {
                f.debug_tuple(stringify!($name)).field(&self.as_str()).finish()
            }
        }
    };
}

macro_rules! subtag {
    ($(#[$about:meta])* $name:ident, $refusal:ident, $parsed:expr) => {
        $(#[$about])*
        #[derive(Clone, Copy, PartialEq, Eq, PartialOrd, Ord, Hash)]
        pub struct $name(Short);

        impl $name {
            /// The subtag of the text, in any case.
            pub fn try_from_str(text: &str) -> Result<Self, ParseError> {
                Self::try_from_utf8(text.as_bytes())
            }

            /// The subtag of the text, in any case.
            pub fn try_from_utf8(text: &[u8]) -> Result<Self, ParseError> {
                if text.is_empty() {
                    return Err(ParseError::of(Refusal::$refusal, &[]));
                }
                let parsed: fn(&[u8]) -> Result<Option<$name>, ParseError> = $parsed;
                parsed(text)?.ok_or_else(|| ParseError::of(Refusal::$refusal, &[text]))
            }

            /// The normal form.
            pub fn as_str(&self) -> &str {
                self.0.as_str()
            }

            /// The byte order of the normal form against other bytes, as they stand.
            pub fn strict_cmp(self, other: &[u8]) -> Ordering {
                self.as_str().as_bytes().cmp(other)
            }

            /// Whether the text is this subtag, in any case.
            pub fn normalizing_eq(self, other: &str) -> bool {
                self.as_str().eq_ignore_ascii_case(other)
            }

            /// The subtag whose normal form this is.
            pub(crate) fn of_normal(text: &str) -> Self {
                $name(Short::of(text))
            }
        }

        text!($name);
    };
}

subtag!(
    /// A language, such as `en`. The default is `und`, the unknown one.
    Language,
    InvalidLanguage,
    |text| Locale::with(sys::icu_locale_set_language, text).map(|it| Some(it.language()))
);

subtag!(
    /// A script, such as `Latn`.
    Script,
    InvalidSubtag,
    |text| Locale::with(sys::icu_locale_set_script, text).map(|it| it.script())
);

subtag!(
    /// A region, such as `US` or `419`.
    Region,
    InvalidSubtag,
    |text| Locale::with(sys::icu_locale_set_region, text).map(|it| it.region())
);

subtag!(
    /// A variant, such as `posix`.
    Variant,
    InvalidSubtag,
    |text| Locale::with(sys::icu_locale_add_variant, text).map(|it| it.variants().pop())
);

subtag!(
    /// The key of a keyword, such as `ca`.
    Key,
    InvalidExtension,
    |text| Locale::with_keyword(text, b"", text).map(|it| it.keywords().pop().map(|(key, _)| key))
);

subtag!(
    /// An attribute of the extension `u`, such as `foo` in `en-u-foo`.
    Attribute,
    InvalidExtension,
    |text| Locale::with(sys::icu_locale_add_attribute, text).map(|it| it.attributes().pop())
);

impl Language {
    /// The unknown language, `und`.
    pub const UNKNOWN: Self = Language(Short::UND);

    /// Whether the language is `und`.
    pub fn is_unknown(self) -> bool {
        self == Self::UNKNOWN
    }
}

impl Default for Language {
    fn default() -> Self {
        Self::UNKNOWN
    }
}

/// The value of a keyword: subtags, such as `islamic-civil`, or none, which stands for `true`.
///
/// The order is that of the crate `icu_locale_core`: by subtags, but values of several come after all others.
///
/// ```
/// use icu_locale_c::extensions::unicode::Value;
///
/// # fn main() -> Result<(), icu_locale_c::ParseError> {
/// let (one, two): (Value, Value) = ("zzz".parse()?, "aaa-bbb".parse()?);
/// assert!(one < two && one == "zzz" && two == "aaa-bbb");
/// # Ok(())
/// # }
/// ```
#[derive(Clone, Default, PartialEq, Eq, Hash)]
pub struct Value(String);

impl Value {
    /// The value of the text, in any case.
    pub fn try_from_str(text: &str) -> Result<Self, ParseError> {
        Self::try_from_utf8(text.as_bytes())
    }

    /// The value of the text, in any case.
    pub fn try_from_utf8(text: &[u8]) -> Result<Self, ParseError> {
        let parsed = Locale::with_keyword(b"ca", text, text)?;
        let value = parsed.keywords().pop().map(|(_, value)| value);
        Ok(value.unwrap_or_default())
    }

    /// The normal form.
    pub fn as_str(&self) -> &str {
        &self.0
    }

    /// Whether it has no subtags.
    pub fn is_empty(&self) -> bool {
        self.0.is_empty()
    }

    /// How many subtags it has.
    pub fn subtag_count(&self) -> usize {
        self.0.split('-').filter(|it| !it.is_empty()).count()
    }

    pub(crate) fn of_normal(text: &str) -> Self {
        Value(text.to_owned())
    }
}

impl Ord for Value {
    fn cmp(&self, other: &Self) -> Ordering {
        let by_number = (self.subtag_count() > 1).cmp(&(other.subtag_count() > 1));
        by_number.then_with(|| self.0.split('-').cmp(other.0.split('-')))
    }
}

impl PartialOrd for Value {
    fn partial_cmp(&self, other: &Self) -> Option<Ordering> {
        Some(self.cmp(other))
    }
}

/// The normal form is compared with the text as it stands.
impl PartialEq<&str> for Value {
    fn eq(&self, other: &&str) -> bool {
        self.0 == *other
    }
}

text!(Value);
