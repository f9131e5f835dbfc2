//! Why a text is refused, and the error that names the text.

use crate::{sys, Expected, Hint, Mode};
use std::fmt;
use std::ops::Range;

/// Why a text is refused, or why the library cannot be asked: what [`ParseError::kind`] returns.
#[derive(Clone, Copy, Debug, PartialEq, Eq, Hash)]
#[non_exhaustive]
pub enum Refusal {
    /// The text does not begin with a language.
    InvalidLanguage,
    /// A subtag may not stand where it stands.
    InvalidSubtag,
    /// An extension breaks its rules.
    InvalidExtension,
    /// An extension begins a second time.
    DuplicatedExtension,
    /// An allocation failed.
    OutOfMemory,
    /// The linked library was made for another header: no text was looked at.
    AnotherLibrary,
    /// The library gave a status that its header does not have here.
    UnknownStatus(u32),
}

impl Refusal {
    pub(crate) fn words(self) -> &'static str {
        match self {
            Refusal::InvalidLanguage => "The given language subtag is invalid",
            Refusal::InvalidSubtag => "Invalid subtag",
            Refusal::InvalidExtension => "Invalid extension",
            Refusal::DuplicatedExtension => "Duplicated extension",
            Refusal::OutOfMemory => "Out of memory",
            Refusal::AnotherLibrary => "The linked libicu_locale is of another header",
            Refusal::UnknownStatus(_) => "The linked libicu_locale gave an unknown status",
        }
    }

    /// Whether it says something of the text.
    fn is_of_text(self) -> bool {
        !matches!(self, Refusal::OutOfMemory | Refusal::AnotherLibrary | Refusal::UnknownStatus(_))
    }
}

/// It prints its words, and honors the width and the alignment that are asked for.
impl fmt::Display for Refusal {
    fn fmt(&self, f: &mut fmt::Formatter<'_>) -> fmt::Result {
        f.pad(self.words())
    }
}

/// A refused text. It prints why, of which text, where unless all of it is at fault, and what may stand there:
/// `Invalid subtag: 'en-US-foo' at 6..9: a variant or an extension may stand here`. If it is known what is usually meant,
/// as of `en_US`, it prints that too.
///
/// It holds a copy of the first 64 bytes of the text, and prints these. So making and cloning one allocates nothing.
/// Two are equal if they have the same kind, range, [`expected`](Self::expected) and [`hint`](Self::hint), and texts of one
/// length that begin alike. It is compared with a [`Refusal`] too:
///
/// ```
/// use icu_locale_c::{Locale, PieceKind, Refusal};
///
/// let text = "en-US-toolonggg";
/// let error = text.parse::<Locale>().unwrap_err();
/// assert_eq!(
///     error.to_string(),
///     "Invalid subtag: 'en-US-toolonggg' at 6..15: a variant or an extension may stand here"
/// );
/// assert_eq!(error.kind(), Refusal::InvalidSubtag);
/// assert_eq!(error, Refusal::InvalidSubtag);
/// assert_eq!(&text[error.range()], "toolonggg");
/// assert!(error.expected().contains(PieceKind::Variant));
/// ```
///
/// An error that says nothing of the text, such as [`Refusal::OutOfMemory`], prints its words alone.
#[derive(Clone, PartialEq, Eq, Hash)]
pub struct ParseError {
    kind: Refusal,
    text: Beginning,
    range: Range<usize>,
    expected: Expected,
    hint: Option<Hint>,
}

impl ParseError {
    /// Why the text is refused.
    pub fn kind(&self) -> Refusal {
        self.kind
    }

    /// Where the fault stands, in bytes of the text that was refused.
    ///
    /// It is the first piece that no text with a meaning has right after the pieces before it. Pieces count whole: that of
    /// `en-foo` is `foo`, though `en-foobar` has a meaning. If there is no such piece, the text ends too early, and the
    /// range is empty at its end. A part that is refused, such as a [`Region`](crate::subtags::Region), is all at fault.
    /// The range is empty at 0 if the error says nothing of the text.
    pub fn range(&self) -> Range<usize> {
        self.range.clone()
    }

    /// What may stand at the beginning of that range. It is empty if a part was refused, or if the error says nothing of the
    /// text.
    pub fn expected(&self) -> Expected {
        self.expected
    }

    /// What is usually meant by the text, if that is known: `en-US` by `en_US`.
    pub fn hint(&self) -> Option<Hint> {
        self.hint
    }

    /// Whether it says something of the text.
    pub(crate) fn is_of_text(&self) -> bool {
        self.kind.is_of_text()
    }

    /// The error of this kind. Its text is that of the parts, one after the other, and is all at fault.
    pub(crate) fn of(kind: Refusal, parts: &[&[u8]]) -> Self {
        let text = Beginning::of(if kind.is_of_text() { parts } else { &[] });
        let range = 0..text.length;
        ParseError { kind, text, range, expected: Expected::default(), hint: None }
    }

    /// The error of a text that was refused in the mode: the library is asked where its fault stands, what may stand there,
    /// and what is usually meant.
    fn found(mut self, mode: Mode, text: &[u8]) -> Self {
        if self.kind.is_of_text() {
            let range = &mut self.range;
            // SAFETY: pointer and length are those of a slice, and what is written to is borrowed alone. A text that
            // has no fault writes nothing.
            unsafe {
                sys::icu_locale_find_fault(
                    mode.number(),
                    text.as_ptr(),
                    text.len(),
                    &mut range.start,
                    &mut range.end,
                )
            };
            self.expected = Expected::at(mode, text, self.range.start);
            self.hint = Hint::of(mode, text);
        }
        self
    }
}

/// It honors the width and the alignment that are asked for.
impl fmt::Display for ParseError {
    fn fmt(&self, f: &mut fmt::Formatter<'_>) -> fmt::Result {
        if !self.kind.is_of_text() {
            return f.pad(self.kind.words());
        }
        let mut said = format!("{}: {}", self.kind, self.text);
        if self.range.len() != self.text.length {
            said += &format!(" at {:?}", self.range);
        }
        if !self.expected.is_empty() {
            said += &format!(": {} may stand here", self.expected);
        }
        if let Some(hint) = self.hint {
            said += &format!("; {hint}");
        }
        f.pad(&said)
    }
}

impl fmt::Debug for ParseError {
    fn fmt(&self, f: &mut fmt::Formatter<'_>) -> fmt::Result {
        let mut shown = f.debug_struct("ParseError");
        shown.field("kind", &self.kind);
        if self.kind.is_of_text() {
            shown.field("text", &format_args!("{}", self.text)).field("range", &self.range);
        }
        if !self.expected.is_empty() {
            shown.field("expected", &self.expected);
        }
        if let Some(hint) = self.hint {
            shown.field("hint", &hint);
        }
        shown.finish()
    }
}

impl std::error::Error for ParseError {}

/// The error is of this kind.
impl PartialEq<Refusal> for ParseError {
    fn eq(&self, other: &Refusal) -> bool {
        self.kind == *other
    }
}

/// How many bytes of a text an error holds.
const ROOM: usize = 64;

/// The first bytes of a text, with zeros behind, and the length of the whole.
#[derive(Clone, PartialEq, Eq, Hash)]
struct Beginning {
    bytes: [u8; ROOM],
    length: usize,
}

impl Beginning {
    fn of(parts: &[&[u8]]) -> Self {
        let (mut bytes, mut length) = ([0; ROOM], 0);
        for part in parts {
            let room = bytes.get_mut(length..).unwrap_or_default();
            let copied = part.len().min(room.len());
            room[..copied].copy_from_slice(&part[..copied]);
            length += part.len();
        }
        Beginning { bytes, length }
    }
}

/// It prints the bytes in quotes, and dots if there are more.
impl fmt::Display for Beginning {
    fn fmt(&self, f: &mut fmt::Formatter<'_>) -> fmt::Result {
        let rest = if self.length > ROOM { "..." } else { "" };
        write!(f, "'{}'{rest}", self.bytes[..self.length.min(ROOM)].escape_ascii())
    }
}

/// The status of a text that was read in the mode, as a result.
pub(crate) fn text_result(status: u32, mode: Mode, text: &[u8]) -> Result<(), ParseError> {
    result(status, &[text]).map_err(|it| it.found(mode, text))
}

/// A status, as a result, with the text that was asked about, in parts. The functions here pass the numbers and the
/// room that the others ask for.
pub(crate) fn result(status: u32, parts: &[&[u8]]) -> Result<(), ParseError> {
    let kind = match status {
        sys::DONE => return Ok(()),
        sys::INVALID_LANGUAGE => Refusal::InvalidLanguage,
        sys::INVALID_SUBTAG => Refusal::InvalidSubtag,
        sys::INVALID_EXTENSION => Refusal::InvalidExtension,
        sys::DUPLICATED_EXTENSION => Refusal::DuplicatedExtension,
        sys::OUT_OF_MEMORY => Refusal::OutOfMemory,
        other => Refusal::UnknownStatus(other),
    };
    Err(ParseError::of(kind, parts))
}

#[cfg(test)]
mod tests {
    use super::*;
    use crate::{check, compare, normalize, normalizing_eq, strict_cmp, Locale};

    /// What may stand at the beginning, and after a language, by UTS #35, section 3.1.
    const LANGUAGE: &str = ": a language may stand here";
    const ALL: &str = ": a script, a region, a variant or an extension may stand here";
    /// The identifier of `t` is one without extensions.
    const IN_TRANSFORM: &str = "Invalid subtag: 'de-a' at 3..4: a script, a region or a variant may stand here";

    #[test]
    fn a_refusal_honors_the_width() {
        assert_eq!(format!("{:>16}|", Refusal::InvalidSubtag), "  Invalid subtag|");
        assert_eq!(format!("{:-<16}|", Refusal::OutOfMemory), "Out of memory---|");
        let error = normalize(Mode::Locale, "e").unwrap_err();
        let said = format!("The given language subtag is invalid: 'e'{LANGUAGE}");
        assert_eq!(format!("{error:>70}|"), format!("  {said}|"));
        let error = "USA".parse::<crate::subtags::Region>().unwrap_err();
        assert_eq!(format!("{error:>23}|"), "  Invalid subtag: 'USA'|");
    }

    #[test]
    fn a_refused_text_is_named() {
        let said = |text: &[u8]| normalize(Mode::Locale, text).unwrap_err().to_string();
        assert_eq!(said(b"en-"), format!("Invalid subtag: 'en-' at 3..3{ALL}"));
        assert_eq!(said(b"e-US"), format!("The given language subtag is invalid: 'e-US' at 0..1{LANGUAGE}"));
        assert_eq!(said(b"en-\xc3\xa9-US"), format!("Invalid subtag: 'en-\\xc3\\xa9-US' at 3..5{ALL}"));
        assert_eq!(said(b""), format!("The given language subtag is invalid: ''{LANGUAGE}"));
        let odd = format!("The given language subtag is invalid: 'e\\'\\x00\\xff'{LANGUAGE}");
        assert_eq!(said(b"e'\0\xff"), odd);
        let blank = format!("The given language subtag is invalid: 'e\\n'{LANGUAGE}; leave out the blanks");
        assert_eq!(said(b"e\n"), blank);
        let long = [b'a'; 65];
        assert_eq!(said(&long[..64]), format!("The given language subtag is invalid: '{}'{LANGUAGE}", "a".repeat(64)));
        assert_eq!(said(&long), format!("The given language subtag is invalid: '{}'...{LANGUAGE}", "a".repeat(64)));
        let cut = format!("Invalid subtag: 'en-{}'... at 3..68{ALL}", "a".repeat(61));
        assert_eq!(said(&[b"en-", &long[..]].concat()), cut);
        let both = |one, other| compare(Mode::Locale, one, other).unwrap_err().to_string();
        assert_eq!(both("en-", "fr-"), format!("Invalid subtag: 'en-' at 3..3{ALL}"));
        assert_eq!(both("en", "fr-"), format!("Invalid subtag: 'fr-' at 3..3{ALL}"));
    }

    #[test]
    fn each_call_names_its_text() {
        use crate::extensions::unicode::{Attribute, Key, Value};
        use crate::subtags::{Language, Region, Script, Variant};
        let mut it = Locale::default();
        let said = |error: ParseError| error.to_string();
        let en = format!("Invalid subtag: 'en-' at 3..3{ALL}");
        assert_eq!(said("en-".parse::<Locale>().unwrap_err()), en);
        assert_eq!(said(Locale::normalize("en-").unwrap_err()), en);
        assert_eq!(said("e".parse::<Language>().unwrap_err()), "The given language subtag is invalid: 'e'");
        assert_eq!(said("".parse::<Script>().unwrap_err()), "Invalid subtag: ''");
        assert_eq!(said("USA".parse::<Region>().unwrap_err()), "Invalid subtag: 'USA'");
        assert_eq!(said("abc".parse::<Variant>().unwrap_err()), "Invalid subtag: 'abc'");
        assert_eq!(said("c1".parse::<Key>().unwrap_err()), "Invalid extension: 'c1'");
        assert_eq!(said("ab".parse::<Attribute>().unwrap_err()), "Invalid extension: 'ab'");
        assert_eq!(said("a".parse::<Value>().unwrap_err()), "Invalid subtag: 'a'");
        assert_eq!(said(it.set_field("m0", "ab").unwrap_err()), "Invalid extension: 'm0-ab'");
        assert_eq!(said(it.set_field("mm", "").unwrap_err()), "Invalid extension: 'mm'");
        assert_eq!(said(it.set_other("u-foo").unwrap_err()), "Invalid extension: 'u-foo'");
        assert_eq!(said(it.set_private_extension("y").unwrap_err()), "Invalid extension: 'y'");
        assert_eq!(said(it.set_transform_language("de-a").unwrap_err()), IN_TRANSFORM);
    }

    #[test]
    fn an_error_keeps_a_part_of_a_long_text() {
        let text = format!("en-{}", "x".repeat(10_000_000));
        let error = text.parse::<Locale>().unwrap_err();
        assert_eq!((error.range(), error.to_string().len() < 180), (3..text.len(), true));
        assert!(std::mem::size_of::<ParseError>() <= 112);
    }

    #[test]
    fn a_fault_has_a_place() {
        for mode in [Mode::Identifier, Mode::Locale, Mode::DataLocale] {
            let at = |text: &[u8]| normalize(mode, text).unwrap_err().range();
            let [is_locale, is_identifier] = [Mode::Locale, Mode::Identifier].map(|it| it == mode);
            assert_eq!((at(b""), at(b"e-US"), at(b"en-")), (0..0, 0..1, 3..3));
            assert_eq!((at(b"en--US"), at(b"en-US-toolonggg-posix")), (3..3, 6..15));
            assert_eq!((at(b"en-US-\0\xff-posix"), at("en-\u{e9}\u{e9}".as_bytes())), (6..8, 3..7));
            assert_eq!(at(b"en-a-foo-A-bar"), if is_locale { 9..10 } else { 3..4 });
            assert_eq!(at(b"en-u-a8"), if is_identifier { 3..4 } else { 5..7 });
            assert_eq!(at(b"en-u"), if is_identifier { 3..4 } else { 4..4 });
            assert_eq!(check(mode, "en-!").unwrap_err().range(), 3..4);
            assert_eq!(strict_cmp(mode, "en-!", "en").unwrap_err().range(), 3..4);
            assert_eq!(normalizing_eq(mode, "en-!", "en").unwrap_err().range(), 3..4);
            assert_eq!(compare(mode, "en-!", "e").unwrap_err().range(), 3..4);
            assert_eq!(compare(mode, "en", "en-US-!").unwrap_err().range(), 6..7);
        }
        assert_eq!(Locale::try_from_utf8(b"en-t-de-posix-posix").unwrap_err().range(), 14..19);
        assert_eq!(normalize(Mode::DataLocale, "en-u-sd-").unwrap_err().range(), 8..8);
    }

    #[test]
    fn a_part_is_all_at_fault() {
        use crate::subtags::{Language, Region};
        let mut it = Locale::default();
        assert_eq!(it.set_transform_language("de-u-foo").unwrap_err().range(), 3..4);
        assert_eq!(it.set_field("m0", "ab").unwrap_err().range(), 0..5);
        assert_eq!(it.set_other("u-foo").unwrap_err().range(), 0..5);
        assert_eq!("USA".parse::<Region>().unwrap_err().range(), 0..3);
        assert_eq!("".parse::<Language>().unwrap_err().range(), 0..0);
        assert_eq!(result(sys::OUT_OF_MEMORY, &[b"en"]).unwrap_err().range(), 0..0);
    }

    #[test]
    fn an_error_is_a_value() {
        let error = |text: &str| text.parse::<Locale>().unwrap_err();
        let one = error("en-");
        assert_eq!((one.clone(), one.kind()), (error("en-"), Refusal::InvalidSubtag));
        assert!(one != error("fr-") && one == Refusal::InvalidSubtag && one != Refusal::OutOfMemory);
        let shown = "ParseError { kind: InvalidSubtag, text: 'en-', range: 3..3, expected: {Script, Region, Variant, Singleton, End} }";
        assert_eq!(format!("{one:?}"), shown);
        assert!(format!("{:?}", error("en_US")).ends_with("expected: {Language}, hint: Underscores }"));
        let boxed: Box<dyn std::error::Error + Send + Sync> = Box::new(one);
        assert!(boxed.source().is_none() && boxed.downcast_ref::<ParseError>().is_some());
    }

    #[test]
    fn an_unknown_status_is_an_error() {
        let kind = |status| result(status, &[b"en"]).map_err(|it| it.kind());
        assert_eq!(kind(sys::NOT_FOUND), Err(Refusal::UnknownStatus(8)));
        assert_eq!(kind(sys::BUFFER_TOO_SMALL), Err(Refusal::UnknownStatus(6)));
        let said = result(sys::OUT_OF_MEMORY, &[b"en"]).unwrap_err();
        assert_eq!((said.to_string(), said == ParseError::of(Refusal::OutOfMemory, &[])), ("Out of memory".into(), true));
        assert_eq!(format!("{said:?}"), "ParseError { kind: OutOfMemory }");
    }

    #[test]
    fn the_words_are_the_library_s() {
        for (status, refusal) in (1..=5).map(|it| (it, result(it, &[]).unwrap_err().kind())) {
            let mut words = [0u8; 64];
            let mut needed = 0;
            // SAFETY: the pointers are of values that live here, and the room is that of the array.
            let ended = unsafe { sys::icu_locale_words(status, words.as_mut_ptr(), words.len(), &mut needed) };
            assert_eq!((ended, &words[..needed]), (sys::DONE, refusal.words().as_bytes()));
        }
    }
}
