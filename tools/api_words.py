"""The words by which the pages of calls say clauses: conditions, refusals, memory; and what stands in
the Rust crate for each item. A relation of a contract has one place here, so that every call that
states it is described alike."""

# What a `requires` asks, by its fact.
CONDITIONS = [
    (r"^F\.IsAlwaysCallable (\w+)$", r"`\1` can be called in whatever state its earlier calls left it. Each closure without a `requires` of its own can."),
    (r"^index ≤ length .*$", r"`index` is at most the length."),
    (r"^index < length .*$", r"`index` is less than the length."),
    (r"^i < length self\.old\.pairs\.now$", r"`i` is less than `len()`."),
    (r"^self\.old\.count \+ 1 < 2 \^ 32$", r"`count()` is less than `u32::MAX`."),
    (r"^probe\.old\.count ≡ 0$", r"The probe has compared nothing yet."),
    (r"^N ≤ 8$", r"`N` is at most 8."),
    (r"^is_tiny_text N piece ≡ true$", r"The piece has at most `N` bytes, each from 1 to 127."),
    (r"^length self ≤ M$", r"The text has at most `M` bytes."),
    (r"^length self \+ length other ≤ Q$", r"Both texts together have at most `Q` bytes."),
    (r"^All \(λ b\. b < 128\) \(take len padded\)$", r"The first `len` bytes are ASCII."),
    (r"^len ≤ 8$", r"There are at most eight bytes."),
    (r"^HasAscendingKeys K\.cmp .*$", r"The keys ascend strictly."),
    (r"^\(k c : K\) → K\.is_clone k c → c ≡ k$", r"A clone of a key equals the key."),
    (r"^\(v c : V\) → V\.is_clone v c → c ≡ v$", r"A clone of a value equals the value."),
    (r"^\(x y : T\) → T\.is_clone x y → y ≡ x$", r"A clone of an item equals the item."),
    (r"^IsFiniteIterable .*$", r"The iterator ends."),
    (r"^\(it : I\.IntoIter\) → I\.into_iter_gives iter it → .*IsFinite.*$", r"The iterator ends."),
    (r"^IsNormal words\.Subtag input$", r"The text has 2 to 8 lower-case letters or digits."),
    (r"^ascends word_cmp input\.items ≡ true$", r"The items ascend strictly. `subtags::is_strictly_ascending` tests it."),
    (r"^is_ascii_alphanumeric ext ≡ true$", r"`ext` is an ASCII letter or digit."),
]

# When a call surely allocates nothing, by the premise of a clause that ends in `IsOk result`.
ENOUGH = [
    (r"^$", "always"),
    (r"^length self\.old < 4$", "fewer than four are held"),
    (r"^length self\.old < 1$", "there is no key yet"),
    (r"^(?:self\.old|items_of self\.old) ≡ \[\]$", "the list is empty"),
    (r"^length self\.old < S\.free$", "the store has a place left inline: of a `ShortBoxSlice` if the map is empty, of a `Vec` never"),
    (r"^length \(pairs self\.old\) < free$", "the store has a place left inline: of a `ShortBoxSlice` if it is empty, of a `Vec` never"),
    (r"^length self\.(?:old|now) \+ length (\w+)(?:\.now)? ≤ 4$", "both have at most four together"),
    (r"^length self\.now ≤ 4$", "at most four are held"),
    (r"^length (\w+) ≡ 0$", r"`\1` is empty"),
    (r"^is_some \(find .*\) ≡ true$", "the key is there already"),
    (r"^list_any \(is_same word\) self\.old ≡ true$", "the subtag is there already"),
    (r"^length \(rg_entry .*\) ≤ 1$", "at most one of `rg` and `sd` is written"),
    (r"^length \(attributes_read .*\) ≤ 4$", "at most four different attributes are parsed"),
    (r"^is_true subtag ≡ true$", "the subtag is `true`"),
    (r"^reference_bytes\.now ≡ W\.text writeable\.now$", "the bytes are the printed text"),
    (r"^lends self\.now$", "the value lends its text: `writeable_borrow` is `Some`"),
]

# Relations that leave no answer but `Ok`.
ALWAYS = r"^result ≡ Ok |^GivesKeyed |^GivesValue "

NO_LANGUAGE = ("InvalidLanguage", "the first subtag is no language")
NO_IDENTIFIER = ("InvalidSubtag", "a language stands first, and the rest is no script, region and variants in this order, or a variant stands twice")
FIVE_VARIANTS = "more than four variants stand after language, script and region"
FIVE_WORDS = "more than four subtags are kept"
LONG_LOCALE = "the identifier has more than four variants, or an extension is reached that is not short: more than four attributes, a second key, a keyword of more than four subtags besides `true`, more than four variants or a field after `t`, more than four subtags after `x`, or an extension of another singleton; so never if the text is inline"
LOCALE = [
    NO_LANGUAGE,
    ("InvalidSubtag", "the text up to the first singleton is no identifier, or the first bad extension is `t` with a variant that stands twice"),
    ("InvalidExtension", "the first bad extension has no letter or digit as its singleton, or breaks its rule in any other way"),
    ("DuplicatedExtension", "the first bad extension begins with a singleton that stood before"),
]
BAD_SMALL = "a language stands first and the text up to the first singleton is no identifier with at most one variant; or the first extension is another than `u`, begins with an attribute, or goes on after its key with anything but values, of which at most one is not `true`"
SMALL = [
    NO_LANGUAGE,
    ("InvalidSubtag", f"{BAD_SMALL}. So it refuses longer locales too"),
    ("InvalidExtension", "the first singleton is no letter or digit, or neither a key nor an attribute follows `u`"),
]
UNICODE = [("InvalidExtension", "a subtag of two bytes is reached that is no key, or there is neither attribute nor keyword")]
TRANSFORM = [
    ("InvalidSubtag", "a variant stands twice"),
    ("InvalidExtension", "a key has no value, or there is neither identifier nor field"),
]
KEYWORDS = [("InvalidExtension", "a subtag of two bytes is reached that is no key")]
PRIVATE = [("InvalidExtension", "what follows is not one private subtag or more")]
OTHER = [("InvalidExtension", "no subtag is kept")]
KEYWORD_VALUE = [("InvalidKeywordValue", "the value is none of the type's")]
UNICODE_MEMORY = "there are more than four attributes, a second key, or a keyword of more than four subtags besides `true`"


def begins(letter, faults):
    name, when = faults[-1]
    return faults[:-1] + [(name, f"the text does not begin with {letter}; or {when}")]


# The refusals of a parser, and when it may run out of memory (`None`: never), by its relation.
READERS = {
    "iloc_langid.IdentifierReads": ([NO_LANGUAGE, NO_IDENTIFIER], FIVE_VARIANTS),
    "iloc_langid.SmallReads": ([NO_LANGUAGE, ("InvalidSubtag", "the rest is no script, region and at most one variant in this order")], None),
    "iloc_langid.NormalizingIdentifierWantsMemory": ([NO_LANGUAGE, NO_IDENTIFIER], f"the text is accepted and not normalized, or {FIVE_VARIANTS}"),
    "iloc_locale.LocaleTextReads": (LOCALE, LONG_LOCALE),
    "iloc_locale.NormalizingWantsMemory": (LOCALE, f"the text is accepted and not normalized, or {LONG_LOCALE}"),
    "iloc_langid.SmallLocaleTextReads": (SMALL, None),
    "iloc_data.DataTextReads": ([
        NO_LANGUAGE,
        ("InvalidSubtag", BAD_SMALL),
        ("InvalidExtension", "the first singleton is no letter or digit, neither a key nor an attribute follows `u`, or the keyword is not `sd` with a readable subdivision"),
    ], None),
    "iloc_unicode.AttributesTextReads": ([], "there are more than four different attributes"),
    "iloc_unicode.KeywordsTextReads": (KEYWORDS, "there is a second key, or a keyword of more than four subtags besides `true`"),
    "iloc_unicode.KeywordsReads": (KEYWORDS, "there is a second key, or a keyword of more than four subtags besides `true`"),
    "iloc_unicode.UnicodeTextReads": (begins("`u`", UNICODE), UNICODE_MEMORY),
    "iloc_unicode.UnicodeReads": (UNICODE, UNICODE_MEMORY),
    "iloc_word_list.ValueTextReads": ([("InvalidSubtag", "the text is not empty, and not all of it is subtags of 2 to 8 letters or digits")], "there are more than four subtags besides `true`"),
    "iloc_transform.TransformTextReads": (begins("`t`", TRANSFORM), "there is a field, or a fifth variant"),
    "iloc_transform.TransformReads": (TRANSFORM, "there is a field, or a fifth variant"),
    "iloc_transform.FieldValueTextReads": ([("InvalidExtension", "not all of the text is subtags of 3 to 8 letters or digits, one at least")], "there are more than four subtags besides `true`"),
    "iloc_other.OtherTextReads": (begins("a letter or digit other than `t`, `u`, `x`", OTHER), FIVE_WORDS),
    "iloc_other.OtherReads": (OTHER, FIVE_WORDS),
    "iloc_other.PrivateTextReads": (begins("`x`", PRIVATE), "there are more than four private subtags"),
    "iloc_other.PrivateReads": (PRIVATE, "there are more than four private subtags"),
    "iloc_keyword_types.SubdivisionTextReads": ([
        ("InvalidSubtag", "the text is no subtag of 2 to 8 letters or digits"),
        ("InvalidExtension", "its beginning is no region, or its rest no suffix of 1 to 4 letters or digits"),
    ], None),
    "iloc_keyword_types.ReadsScripts": ([("InvalidKeywordValue", "a subtag of the value is no script")], "there are more than four scripts"),
    "iloc_json.ReadsText": (
        [("NotText", "the JSON value is no string"), ("Parse", "the parser of the type refuses the string; its refusal is inside")],
        "`OutOfMemory` only if the parser of the type runs out of memory. That of a subtag never does.",
    ),
    "iloc_program.WritesBeginning": (
        [
            ("Read", "the reader returns an error, or no end after `u64::MAX` reads"),
            ("Write", "the writer returns an error, or takes no byte"),
        ],
        "May allocate: `OutOfMemory` if that fails.",
    ),
    "iloc_program.ListsBeginning": (
        [
            ("Read", "the reader returns an error, or no end after `u64::MAX` reads; or a line has no number of 64 bits"),
            ("Write", "the writer returns an error, or takes no byte"),
        ],
        "May allocate: `OutOfMemory` if that fails.",
    ),
}

# Refusals of calls whose contract leaves them to each type.
BY_CALL = {
    **dict.fromkeys(
        ("PreferenceKey::try_from_key_value", "PreferenceKey::try_from_key_value_in"),
        (KEYWORD_VALUE, "the type is `DictionaryBreakScriptExclusions` and the value has more than four scripts"),
    ),
    "JsonText::to_json": ([], "May allocate: `OutOfMemory` if that fails."),
    "TextValue::read_text": ([("ParseError", "the parser of the type refuses the text")], "`OutOfMemory` only if the parser of the type runs out of memory."),
    "write_to_io": ([("io::Error", "the writer fails, or takes no byte (`WriteZero`); it then took a beginning of the text")], None),
    **dict.fromkeys(
        ("Writeable::write_to", "Sink::write_str", "Sink::write_short_piece", "Sink::write_char"),
        ([("fmt::Error", "the sink fails; it then took a beginning of the text")], None),
    ),
    "Word::try_from_utf8": ([("ParseError", "the text is no subtag of the kind; each kind has one refusal")], None),
    "place": ([("Err", "the key is not there; the place is where it would go")], None),
    "FormatPreferences::from_locale_strict": ([("Err", "a keyword of these preferences is there and cannot be parsed, or `sd` is of another region; the same preferences are inside")], None),
    "TimePreferences::from_locale_strict": ([("Err", "a keyword of these preferences is there and cannot be parsed, or `sd` is of another region; the same preferences are inside")], None),
    "LocalePreferences::from_locale_strict": ([("Err", "`sd` or `rg` is there and cannot be parsed, or `sd` is of another region; the same preferences are inside")], None),
}

# First sentences of calls whose comment refers to the one before it.
SENTENCES = {
    "TinyAsciiStr::try_from_str": "The text of a `str`; `None` if it has more than `N` bytes, or one is zero or above 127.",
    "TinyAsciiStr::resize": "This text in another size, of at least its length.",
    "Probe::new": "A probe of these pairs, which has compared nothing yet.",
}

# What is explained where it appears, as no path of the public crate leads to it.
EXPLAINED = {
    "ShortPiece": "`ShortPiece` is a text of at most eight bytes in one machine word. It is no public item: a program gets one from `to_piece` and hands it on.",
    "KeywordKind": "`KeywordKind` says which keyword it is. It is no public item: use the aliases, as `NumberingSystem`.",
    "SubtagContent": "`SubtagContent` is what one subtag can stand for: a `subtags::Subtag` or a `SubdivisionId`. It is no public item.",
}

# What an `impl` says whose comment refers to the one before it.
GIVEN = {
    "From<AllocFailed<T>>": "The failure of a collection to allocate, as of `Vec::push`, is `OutOfMemory`. What could not be stored is dropped.",
}

# Modules that are crates of their own in Rust.
CRATES_OF_RUST = {"tinystr", "writeable", "litemap"}

# The items of the Rust crate, and of the crates beside it, that stand here under the same name, by module.
IN_RUST = {
    "tinystr": "TinyAsciiStr",
    "writeable": "LengthHint Writeable cmp_utf8 to_string_or_borrow",
    "shortvec": "ShortBoxSlice ShortBoxSliceIntoIter",
    "litemap": "LiteMap",
    "subtags": "Language Region Script Subtag Variant Variants",
    "parser": "ParseError",
    "langid": "LanguageIdentifier",
    "extensions": "ExtensionType Extensions",
    "extensions::unicode": "SubdivisionId Attribute SubdivisionSuffix Key Attributes Keywords Unicode Value",
    "extensions::transform": "Fields Key Transform Value",
    "extensions::other": "Other",
    "extensions::private": "Private Subtag",
    "locale": "Locale",
    "data": "DataLocale",
    "preferences": "LocalePreferences PreferenceKey",
    "preferences::extensions::unicode::errors": "PreferencesParseError",
    "preferences::extensions::unicode::keywords": (
        "CollationCaseFirst CollationNumericOrdering CollationType CommonVariantType CurrencyFormatStyle "
        "EmojiPresentationStyle FirstDay HourCycle LineBreakStyle LineBreakWordHandling MeasurementSystem "
        "MeasurementUnitOverride SentenceBreakSupressions CalendarAlgorithm DictionaryBreakScriptExclusions "
        "HijriCalendarAlgorithm NumberingSystem RegionOverride RegionalSubdivision TimeZoneShortId CurrencyType"
    ),
}

# Own items: what the Rust crate does not have, or has by another name (the value; empty: nothing).
OWN = {
    **dict.fromkeys((
        "writeable::IoSink writeable::write_to_io shortvec::ShortWords shortvec::ShortWordsIntoIter litemap::Probe "
        "litemap::place subtags::Word subtags::WordKind subtags::WordOf subtags::is_strictly_ascending faults::Fault "
        "faults::fault_of faults::Mode faults::expected faults::Expected faults::PieceKind faults::hint faults::Hint matching::matches cleaning::clean_line cleaning::without_mark langid::equality locale::equality locale::OrderedLocale "
        "memory::Memory memory::Trees memory::Ample memory::Copied memory::Copying memory::FromMemory memory::FromOwn "
        "litemap::GrowingStore litemap::CopyingStore locale::ample_memory locale::ample_normalizing "
        "locale::ample_printing writeable::to_string_or_borrow_in "
        "locale::every_locale_is_a_value json::JsonError json::TextValue"
    ).split(), ""),
    **dict.fromkeys((
        "bench::FormatPreferences bench::TimePreferences preferences::FormatPreferences preferences::TimePreferences"
    ).split(), "a type that define_preferences! makes"),
    "writeable::Sink": "core::fmt::Write",
    "parser::SubtagIterator": "parser::SubtagIterator (private)",
    "extensions::unicode::KeywordsIter": "impl Iterator (unnamed)",
    "litemap::Store": "litemap::store::Store (and its kin)",
    "json::JsonText": "serde::Serialize, serde::Deserialize",
    "bench::CarryError": "",
    **dict.fromkeys(("bench::carry_v1", "bench::carry_v1_in"), ""),
}
OWN_MODULES = ("laws", "program", "subtags::kinds")

# The Rust types that a generic type stands for.
BASES = {
    "WordOf": "each of the eleven kinds of subtags, as `subtags::Language`",
    "WordSet": "`subtags::Variants`",
    "SingleKeyword": "`NumberingSystem`, `TimeZoneShortId`, `RegionOverride`, `RegionalSubdivision`",
}

# Calls that stand for another item of Rust (empty: nothing does).
OWN_CALLS = {
    **dict.fromkeys((
        "extend_from_map item_mut try_from_raw_v1 from_piece to_piece from_word is_well_formed "
        "union write_short_piece lm_empty lm_pairs lm_value_mut lm_from_vec "
        "push_in insert_in push_subtag_in extend_in from_subtags_in try_from_utf8_in try_from_str_in "
        "with_capacity reserve"
    ).split(), ""),
    "unknown": "the constant UNKNOWN",
    "from_vec": "From<Vec<T>>",
    "from_iter": "FromIterator",
    "from_pairs": "FromIterator",
    "from_subtags": "FromIterator<Subtag>",
    "as_slice": "Deref",
    "as_mut_slice": "DerefMut",
    "words": "Display",
    "as_inner": "Deref",
    "to_value": "From for Value",
    "try_from_value": "TryFrom<Value>",
    "to_locale": "From<LocalePreferences> for Locale",
    "as_langid": "AsRef<LanguageIdentifier>",
    "from_langid": "From<LanguageIdentifier>",
    "from_language": "From<Language>",
    "from_script": "From<Option<Script>>",
    "from_region": "From<Option<Region>>",
    "from_parts": "From<(Language, Option<Script>, Option<Region>)>",
    "eq_str": "PartialEq<str>",
    "to_json": "Serialize",
    "from_json": "Deserialize",
    "lm_clone": "Clone",
}
# The calls of a type whose Rust counterpart has another name than the general table says.
OWN_CALLS_OF = {
    **dict.fromkeys((
        "Keywords::try_from_iter Keywords::as_slice Attributes::try_from_iter Unicode::try_from_iter "
        "Transform::try_from_iter Other::try_from_iter Private::try_from_iter Fields::empty WordSet::extend "
        "Fields::as_slice Other::as_slice LiteMap::as_slice Value::as_slice Locale::clear Extensions::clear "
        "LanguageIdentifier::clear"
    ).split(), ""),
    "LocalePreferences::extend": "LocalePreferences::extend",
    "Value::extend": "Extend<Subtag>",
    "LiteMap::extend": "Extend",
    "PreferenceKey::unicode_extension_value": "PreferenceKey::unicode_extension_value",
}

# What changes at a call, where the signature alone does not show it.
CHANGES = {
    **{f"TinyAsciiStr::try_from_{it}": "an `Option` in place of a `Result`" for it in ("str", "utf8", "raw")},
    "LiteMap::iter": "references to pairs in place of pairs of references",
    "Locale::normalizing_eq": "`alloc` first, `?`",
    "Keywords::remove": "a `&Key`",
    "LiteMap::remove": "a `&K`",
}
