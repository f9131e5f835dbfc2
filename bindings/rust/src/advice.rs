//! What may stand at the place of a fault, and what is usually meant by a refused text.

use crate::{sys, Mode};
use std::fmt;

/// What a piece of a text is, or the end of the text.
#[derive(Clone, Copy, Debug, PartialEq, Eq, Hash, PartialOrd, Ord)]
pub enum PieceKind {
    /// A language, at the beginning or after `t`.
    Language,
    /// A script.
    Script,
    /// A region.
    Region,
    /// A variant.
    Variant,
    /// The byte that begins an extension.
    Singleton,
    /// An attribute of `u`.
    Attribute,
    /// A key of `u`.
    Key,
    /// A subtag of the value of a key.
    Value,
    /// The key of a field of `t`.
    Field,
    /// A piece of another extension.
    Other,
    /// A subtag after `x`.
    Private,
    /// A subtag of the value of a field.
    FieldValue,
    /// The end of the text.
    End,
}

/// The kinds, each with its bit.
const KINDS: [(PieceKind, u32); 13] = [
    (PieceKind::Language, sys::KIND_LANGUAGE),
    (PieceKind::Script, sys::KIND_SCRIPT),
    (PieceKind::Region, sys::KIND_REGION),
    (PieceKind::Variant, sys::KIND_VARIANT),
    (PieceKind::Singleton, sys::KIND_SINGLETON),
    (PieceKind::Attribute, sys::KIND_ATTRIBUTE),
    (PieceKind::Key, sys::KIND_KEY),
    (PieceKind::Value, sys::KIND_VALUE),
    (PieceKind::Field, sys::KIND_FIELD),
    (PieceKind::Other, sys::KIND_OTHER),
    (PieceKind::Private, sys::KIND_PRIVATE),
    (PieceKind::FieldValue, sys::KIND_FIELD_VALUE),
    (PieceKind::End, sys::KIND_END),
];

/// Which kinds of pieces may stand at a place. It prints as `a script, a region, a variant or an extension`.
///
/// ```
/// use icu_locale_c::{Locale, PieceKind};
///
/// let expected = "en-US-foo".parse::<Locale>().unwrap_err().expected();
/// assert!(expected.contains(PieceKind::Variant) && !expected.contains(PieceKind::Region));
/// assert_eq!(expected.to_string(), "a variant or an extension");
/// assert!(expected.iter().eq([PieceKind::Variant, PieceKind::Singleton, PieceKind::End]));
/// ```
#[derive(Clone, Copy, Default, PartialEq, Eq, Hash)]
pub struct Expected(u32);

impl Expected {
    /// Whether it names the kind.
    pub fn contains(self, kind: PieceKind) -> bool {
        KINDS.iter().any(|&(it, bit)| it == kind && self.0 & bit != 0)
    }

    /// Whether it names none.
    pub fn is_empty(self) -> bool {
        self.0 == 0
    }

    /// The kinds that it names.
    pub fn iter(self) -> impl Iterator<Item = PieceKind> {
        KINDS.into_iter().filter(move |&(_, bit)| self.0 & bit != 0).map(|(it, _)| it)
    }

    /// What may stand at this byte of the text.
    pub(crate) fn at(mode: Mode, text: &[u8], place: usize) -> Self {
        let mut kinds = 0;
        // SAFETY: pointer and length are those of a slice, and what is written to lives here. A mode is one of the header, so
        // it is written to.
        unsafe { sys::icu_locale_expected(mode.number(), text.as_ptr(), text.len(), place, &mut kinds) };
        Expected(kinds)
    }
}

/// Its words, those of the library. It honors the width and the alignment that are asked for.
impl fmt::Display for Expected {
    fn fmt(&self, f: &mut fmt::Formatter<'_>) -> fmt::Result {
        pad_words(f, sys::icu_locale_expected_words, self.0)
    }
}

impl fmt::Debug for Expected {
    fn fmt(&self, f: &mut fmt::Formatter<'_>) -> fmt::Result {
        f.debug_set().entries(self.iter()).finish()
    }
}

/// What is usually meant by a refused text. It prints as what to do, such as `use hyphens in place of underscores`.
///
/// ```
/// use icu_locale_c::{Hint, Locale};
///
/// assert_eq!("en_US".parse::<Locale>().unwrap_err().hint(), Some(Hint::Underscores));
/// ```
#[derive(Clone, Copy, Debug, PartialEq, Eq, Hash)]
#[non_exhaustive]
pub enum Hint {
    /// A byte order mark begins it.
    Mark,
    /// It has a space, a tab, a CR or a newline.
    Blanks,
    /// It is `C`, `POSIX` or `root`, perhaps with a codeset: it names no language.
    System,
    /// Without its codeset and modifier, and with hyphens for its underscores, it has a meaning: `en_US.UTF-8`.
    Codeset,
    /// With hyphens for its underscores it has a meaning: `en_US`.
    Underscores,
}

impl Hint {
    fn number(self) -> u32 {
        match self {
            Hint::Mark => sys::HINT_MARK,
            Hint::Blanks => sys::HINT_BLANKS,
            Hint::System => sys::HINT_SYSTEM,
            Hint::Codeset => sys::HINT_CODESET,
            Hint::Underscores => sys::HINT_UNDERSCORES,
        }
    }

    /// The hint of a text, if it has one.
    pub(crate) fn of(mode: Mode, text: &[u8]) -> Option<Self> {
        let mut number = sys::NO_HINT;
        // SAFETY: pointer and length are those of a slice, and what is written to lives here.
        unsafe { sys::icu_locale_hint(mode.number(), text.as_ptr(), text.len(), &mut number) };
        let hints = [Hint::Mark, Hint::Blanks, Hint::System, Hint::Codeset, Hint::Underscores];
        hints.into_iter().find(|it| it.number() == number)
    }
}

/// What to do, in the words of the library. It honors the width and the alignment that are asked for.
impl fmt::Display for Hint {
    fn fmt(&self, f: &mut fmt::Formatter<'_>) -> fmt::Result {
        pad_words(f, sys::icu_locale_hint_words, self.number())
    }
}

type Words = unsafe extern "C" fn(u32, *mut u8, usize, *mut usize) -> u32;

/// Prints the words that the library has of a number.
fn pad_words(f: &mut fmt::Formatter<'_>, call: Words, number: u32) -> fmt::Result {
    // The header says that 192 bytes are enough.
    let mut words = [0; 192];
    let mut needed = 0;
    // SAFETY: the pointers are of values that live here, and the room is that of the array.
    unsafe { call(number, words.as_mut_ptr(), words.len(), &mut needed) };
    f.pad(std::str::from_utf8(words.get(..needed).unwrap_or_default()).map_err(|_| fmt::Error)?)
}

#[cfg(test)]
mod tests {
    use super::*;
    use crate::{check, normalize};

    fn kinds(mode: Mode, text: &str) -> Vec<PieceKind> {
        let expected = check(mode, text).unwrap_err().expected();
        let contained = KINDS.map(|(it, _)| it).into_iter().filter(|&it| expected.contains(it));
        assert!(contained.eq(expected.iter()));
        expected.iter().collect()
    }

    fn hint(text: &str) -> Option<Hint> {
        check(Mode::Locale, text).unwrap_err().hint()
    }

    /// By UTS #35, sections 3.1 and 3.2: what an identifier, `u`, `t`, `x` and another extension have.
    #[test]
    fn an_error_says_what_may_stand_there() {
        use PieceKind::*;
        let in_locale = |text| kinds(Mode::Locale, text);
        assert_eq!(in_locale(""), [Language]);
        assert_eq!(in_locale("en-foo"), [Script, Region, Variant, Singleton, End]);
        assert_eq!(in_locale("en-Latn-!"), [Region, Variant, Singleton, End]);
        assert_eq!(in_locale("en-US-foo"), [Variant, Singleton, End]);
        assert_eq!(in_locale("en-u"), [Attribute, Key]);
        assert_eq!(in_locale("en-u-foo-!"), [Singleton, Attribute, Key, End]);
        assert_eq!(in_locale("en-u-ca-!"), [Singleton, Key, Value, End]);
        assert_eq!(in_locale("en-t-!"), [Language, Field]);
        assert_eq!(in_locale("en-t-m0-!"), [FieldValue]);
        assert_eq!(in_locale("en-t-m0-din-!"), [Singleton, Field, FieldValue, End]);
        assert_eq!(in_locale("en-a"), [Other]);
        assert_eq!(in_locale("en-x-!"), [Private]);
        assert_eq!(kinds(Mode::Identifier, "en-US-u-ca"), [Variant, End]);
        assert_eq!(kinds(Mode::DataLocale, "en-posix-macos"), [Singleton, End]);
    }

    #[test]
    fn an_error_says_what_is_meant() {
        assert_eq!(hint("en_US"), Some(Hint::Underscores));
        assert_eq!(hint("en_US.UTF-8"), Some(Hint::Codeset));
        assert_eq!(hint("C"), Some(Hint::System));
        assert_eq!(hint("en-US "), Some(Hint::Blanks));
        assert_eq!(hint("\u{feff}en"), Some(Hint::Mark));
        // With a hyphen it is refused too.
        assert_eq!((hint("en_!"), hint("en-!")), (None, None));
        assert_eq!(check(Mode::Identifier, "en_US_u_ca").unwrap_err().hint(), None);
    }

    #[test]
    fn it_prints_both() {
        let said = |text: &str| normalize(Mode::Locale, text).unwrap_err().to_string();
        assert_eq!(
            said("en-US-toolonggg"),
            "Invalid subtag: 'en-US-toolonggg' at 6..15: a variant or an extension may stand here"
        );
        assert_eq!(
            said("en_US"),
            "The given language subtag is invalid: 'en_US': a language may stand here; \
             use hyphens in place of underscores"
        );
        let long = format!("en{}-!", "-abcdefgh".repeat(10));
        let error = long.parse::<crate::Locale>().unwrap_err();
        assert!(error.to_string().ends_with("may stand here"), "{error}");
        assert_eq!(error.expected().iter().collect::<Vec<_>>(), [PieceKind::Variant, PieceKind::Singleton, PieceKind::End]);
        assert_eq!(format!("{:>27}|", error.expected()), "  a variant or an extension|");
        assert_eq!(format!("{:?}", error.expected()), "{Variant, Singleton, End}");
        assert_eq!(format!("{:-<37}|", Hint::Underscores), "use hyphens in place of underscores--|");
    }

    #[test]
    fn a_part_has_no_place() {
        use crate::subtags::Region;
        let error = "U_S".parse::<Region>().unwrap_err();
        assert!(error.expected().is_empty() && error.hint().is_none());
        assert_eq!(Expected::default().to_string(), "nothing");
    }
}
