//! What a program relies on that comes from the crate `icu_locale_core`: what the tests of that crate ask, as far as this
//! package has the calls, with texts of their own; and the names that README.md calls the same.
//!
//! Not said here are its tests of what this package lacks: macros, parsers of single extensions, iterators of subtags,
//! raw bytes, sizes, serialization, and preferences as types.

use icu_locale_c::extensions::unicode::{Attribute, Key, Value};
use icu_locale_c::subtags::{Language, Region, Script, Variant};
use icu_locale_c::{check, compare, normalize, Locale, Mode, ParseError, Priority, Refusal};
use std::cmp::Ordering;
use std::collections::hash_map::DefaultHasher;
use std::hash::{Hash, Hasher};

fn locale(text: &str) -> Locale {
    text.parse().unwrap_or_else(|refusal| panic!("{text}: {refusal}"))
}

fn value(text: &str) -> Value {
    text.parse().unwrap_or_else(|refusal| panic!("{text}: {refusal}"))
}

fn refused(mode: Mode, text: &str) -> ParseError {
    check(mode, text).expect_err(text)
}

/// What `test_construction` and `test_writeable` ask of each subtag: those that are taken as they stand, those that are
/// normalized, and those that are refused.
macro_rules! subtags {
    ($test:ident, $kind:ident, $refusal:ident, $normal:expr, $given:expr, $wrong:expr) => {
        #[test]
        fn $test() {
            for text in $normal {
                let parsed = $kind::try_from_str(text).unwrap();
                assert_eq!(Ok(parsed), $kind::try_from_utf8(text.as_bytes()));
                assert_eq!(Ok(parsed), text.parse());
                assert_eq!((parsed.as_str(), parsed.to_string().as_str()), (text, text));
                assert_eq!(format!("{parsed:?}"), format!("{}({text:?})", stringify!($kind)));
            }
            for (text, normal) in $given {
                let parsed: $kind = text.parse().unwrap();
                assert_eq!(parsed.as_str(), normal);
                assert!(parsed.normalizing_eq(text) && parsed.normalizing_eq(normal));
                assert!(!parsed.normalizing_eq("") && !parsed.normalizing_eq(&format!("{text}-")));
                assert_eq!(parsed.strict_cmp(normal.as_bytes()), Ordering::Equal);
                assert_eq!(parsed.strict_cmp(text.as_bytes()), normal.as_bytes().cmp(text.as_bytes()));
                assert_eq!(parsed.strict_cmp(b""), Ordering::Greater);
                assert_eq!(parsed.strict_cmp(b"~"), Ordering::Less);
            }
            for text in $wrong {
                assert_eq!($kind::try_from_str(text).unwrap_err(), Refusal::$refusal, "{text}");
            }
        }
    };
}

subtags!(
    languages,
    Language,
    InvalidLanguage,
    ["fr", "csb", "und", "yue"],
    [("FR", "fr"), ("Csb", "csb")],
    ["", "f", "fran", "9a", "f9", "f-r", "fr-", "langlangl"]
);
subtags!(
    scripts,
    Script,
    InvalidSubtag,
    ["Cyrl", "Zzzz"],
    [("CYRL", "Cyrl"), ("zzzz", "Zzzz")],
    ["", "Cyr", "Cyril", "Cyr1", "Cy-l"]
);
subtags!(
    regions,
    Region,
    InvalidSubtag,
    ["FR", "150"],
    [("fr", "FR"), ("Fr", "FR")],
    ["", "F", "FRA", "15", "1500", "F1", "15A"]
);
subtags!(
    variants,
    Variant,
    InvalidSubtag,
    ["1901", "ekavsk", "scouse", "valencia"],
    [("SCOUSE", "scouse"), ("1Abc", "1abc")],
    ["", "ekav", "toolongone", "190", "abc-def"]
);
subtags!(keys, Key, InvalidExtension, ["co", "nu", "1b"], [("CO", "co"), ("1B", "1b")], ["", "c", "cal", "c1", "c-"]);
subtags!(
    attributes,
    Attribute,
    InvalidExtension,
    ["abc", "12345678"],
    [("ABC", "abc")],
    ["", "ab", "123456789", "ab-c"]
);

/// A language of the crate has two or three letters. Here it may also have five to eight, as UTS #35 says.
#[test]
fn a_language_of_five_to_eight_letters() {
    for text in ["german", "abcde", "ABCDEFGH"] {
        assert_eq!(Language::try_from_str(text).unwrap().as_str(), text.to_ascii_lowercase());
    }
    assert_eq!(Locale::normalize("GERMAN-de").unwrap(), "german-DE");
    assert!(Language::UNKNOWN.is_unknown() && Language::default().is_unknown() && !locale("fr").language().is_unknown());
}

#[test]
fn values() {
    let printed = |text: &str| value(text).to_string();
    assert_eq!((printed(""), printed("true"), Value::default().to_string()), Default::default());
    assert_eq!((printed("PHONEBK"), printed("Islamic-TBLA")), ("phonebk".into(), "islamic-tbla".into()));
    assert_eq!(Value::try_from_utf8(b"ab-12345678").unwrap().subtag_count(), 2);
    for text in ["a", "abc-d", "123456789", "abc--def", "abc-", "-abc", "ab_c"] {
        assert_eq!(Value::try_from_str(text).unwrap_err(), Refusal::InvalidSubtag, "{text}");
    }
    assert!(value("ROC") == "roc" && value("roc") != "ROC" && value("") == "" && value("true") == "");
    assert!(value("islamic-tbla") == "islamic-tbla" && value("islamic-tbla") != "islamic");
}

#[test]
fn values_of_several_subtags_come_last() {
    let ascending = ["", "1a", "aaa", "zzz", "aa-zz", "aaa-bbb", "aaa-bbb-ccc", "aaa-bbb1", "aaa1-aa", "zz-aa"];
    for (at, one) in ascending.iter().enumerate() {
        for (index, other) in ascending.iter().enumerate() {
            assert_eq!(value(one).cmp(&value(other)), at.cmp(&index), "{one} and {other}");
            assert_eq!(value(one).partial_cmp(&value(other)), Some(at.cmp(&index)));
        }
    }
}

#[test]
fn locales_are_printed() {
    assert_eq!(Locale::UNKNOWN.to_string(), "und");
    for text in [
        "und-150",
        "und-Cyrl",
        "ru-Cyrl-RU",
        "ru-Cyrl-RU-scouse",
        "pt-1901-scouse",
        "ru-t-ru-m0-bgn",
        "fa-IR-u-ca-islamic-tbla",
        "fr-150-x-l-abc",
        "und-t-h0-true",
        "und-b-abc-t-abc-u-abc-y-abc-z-abc-x-abc",
        "fr-2-abc-value",
        "und-2-abc-b-abc",
    ] {
        assert_eq!(locale(text).to_string(), text);
        assert_eq!(locale(&text.to_ascii_uppercase()).to_string(), text);
    }
    assert_eq!(locale("und-b-abc-2-xyz").to_string(), "und-2-xyz-b-abc");
}

#[test]
fn locales_are_refused() {
    for (text, refusal) in [
        ("", Refusal::InvalidLanguage),
        ("9a", Refusal::InvalidLanguage),
        ("x-abc", Refusal::InvalidLanguage),
        ("fr-", Refusal::InvalidSubtag),
        ("fr--FR", Refusal::InvalidSubtag),
        ("fr-FR-FR", Refusal::InvalidSubtag),
        ("fr-scouse-scouse", Refusal::InvalidSubtag),
        ("fr-u", Refusal::InvalidExtension),
        ("fr-t", Refusal::InvalidExtension),
        ("fr-x", Refusal::InvalidExtension),
        ("fr-b", Refusal::InvalidExtension),
        ("fr-u-co-phonebk-u-ca-roc", Refusal::DuplicatedExtension),
    ] {
        assert_eq!(Locale::try_from_str(text).unwrap_err(), refusal, "{text}");
        assert_eq!(Locale::try_from_utf8(text.as_bytes()).unwrap_err(), refusal, "{text}");
        assert_eq!(Locale::normalize(text).unwrap_err(), refusal, "{text}");
        assert_eq!(refused(Mode::Locale, text), refusal);
    }
    assert_eq!(refused(Mode::Identifier, "fr-u-co-phonebk"), Refusal::InvalidSubtag);
}

#[test]
fn extensions_are_read() {
    let it = locale("fr-2-abc-xyz-t-ru-latn-m0-bgn-u-xyz-abc-ca-islamic-umalqura-kn-x-l-abc");
    let keywords: Vec<_> = it.keywords().into_iter().map(|(key, value)| format!("{key}={value}")).collect();
    assert_eq!(keywords, ["ca=islamic-umalqura", "kn="]);
    assert_eq!(it.attributes().iter().map(Attribute::as_str).collect::<Vec<_>>(), ["abc", "xyz"]);
    assert_eq!(it.transform_language().as_deref(), Some("ru-Latn"));
    assert_eq!((it.fields(), it.field("m0")), (vec![("m0".into(), "bgn".into())], Some("bgn".into())));
    assert_eq!((it.other('2').as_deref(), it.private_extension().as_str()), (Some("2-abc-xyz"), "x-l-abc"));
    assert_eq!(it.keyword(&"kn".parse().unwrap()), Some(Value::default()));
    assert_eq!(it.keyword(&"co".parse().unwrap()), None);
    assert_eq!(it.base_name(), "fr");
}

/// What the setters refuse, by the names that README.md gives; and nothing has changed then.
#[test]
fn setters_name_what_is_wrong() {
    let mut it = locale("fr-t-ru-m0-bgn-x-abc");
    assert_eq!(it.set_field("mm", "bgn").unwrap_err(), Refusal::InvalidExtension);
    assert_eq!(it.set_field("m0", "ab").unwrap_err(), Refusal::InvalidExtension);
    assert_eq!(it.set_field("m0", "").unwrap_err(), Refusal::InvalidExtension);
    assert_eq!(it.set_other("x-abc").unwrap_err(), Refusal::InvalidExtension);
    assert_eq!(it.set_other("b").unwrap_err(), Refusal::InvalidExtension);
    assert_eq!(it.set_private_extension("abc").unwrap_err(), Refusal::InvalidExtension);
    assert_eq!(it.set_private_extension("x").unwrap_err(), Refusal::InvalidExtension);
    assert_eq!(it.set_transform_language("r").unwrap_err(), Refusal::InvalidLanguage);
    assert_eq!(it.set_transform_language("ru-u").unwrap_err(), Refusal::InvalidSubtag);
    assert_eq!(it.to_string(), "fr-t-ru-m0-bgn-x-abc");
    assert!(!it.normalizing_eq("r") && !it.normalizing_eq("fr-u") && it.normalizing_eq("FR-T-RU-M0-BGN-X-ABC"));
}

#[test]
fn locales_are_compared() {
    let texts = ["fr", "fr-Cyrl", "fr-FR", "fr-FR-scouse", "fr-FR-u-ca-roc", "fr-u-ca-roc", "fr-x-abc", "ru", "und"];
    for text in texts {
        for other in texts {
            let (one, two) = (locale(text), locale(other));
            assert_eq!(one.strict_cmp(other.as_bytes()), text.as_bytes().cmp(other.as_bytes()));
            assert_eq!((one == two, one.total_cmp(&two) == Ordering::Equal), (text == other, text == other));
            assert_eq!(one.total_cmp(&two), two.total_cmp(&one).reverse());
            assert_eq!(one.normalizing_eq(&other.to_ascii_uppercase()), text == other);
            assert_eq!(compare(Mode::Locale, text, other).unwrap(), text.as_bytes().cmp(other.as_bytes()));
        }
    }
    let hash = |it: &Locale| {
        let mut state = DefaultHasher::new();
        it.hash(&mut state);
        state.finish()
    };
    assert_eq!(hash(&locale("FR-fr")), hash(&locale("fr-FR")));
}

#[test]
fn locales_are_made_of_subtags() {
    let (language, script, region) = ("ru".parse().unwrap(), "Cyrl".parse().ok(), "RU".parse().ok());
    assert_eq!(Locale::from((language, script, region)), locale("ru-Cyrl-RU"));
    assert_eq!(Locale::from((language, None, region)), locale("ru-RU"));
    assert_eq!(Locale::from(language), locale("ru"));
    assert_eq!((Locale::default(), Locale::from(Language::UNKNOWN)), (Locale::UNKNOWN, locale("und")));
}

#[test]
fn parts_of_identifiers_are_set_and_cleared() {
    let mut it = locale("fr-FR");
    it.set_language("ru".parse().unwrap());
    it.set_script("cyrl".parse().ok());
    it.set_region(None);
    assert!(it.push_variant("scouse".parse().unwrap()));
    assert_eq!((it.to_string().as_str(), it.region()), ("ru-Cyrl-scouse", None));
    assert_eq!((it.language().as_str(), it.script().unwrap().as_str()), ("ru", "Cyrl"));
    assert!(it.has_variant(&"SCOUSE".parse().unwrap()));
    it.clear_variants();
    it.set_script(None);
    it.set_language(Language::UNKNOWN);
    assert!(it.is_unknown());
}

#[test]
fn texts_are_normalized() {
    for (text, normal) in [("FR_fr", None), ("RU-cyrl-ru", Some("ru-Cyrl-RU")), ("fr-SCOUSE-1901", Some("fr-1901-scouse"))] {
        assert_eq!(normalize(Mode::Identifier, text).ok().as_deref(), normal);
        assert_eq!(Locale::normalize(text).ok().as_deref(), normal);
        assert_eq!(Locale::normalize_utf8(text.as_bytes()).ok().as_deref(), normal);
    }
}

#[test]
fn data_locales() {
    for (text, normal) in [("und", "und"), ("und-u-sd-frbre", "und-FR-u-sd-frbre"), ("fr-FR-u-sd-gbeng", "fr-FR")] {
        assert_eq!(normalize(Mode::DataLocale, text).unwrap(), normal);
    }
    assert!(check(Mode::DataLocale, "und-u-ca-roc").is_err() && check(Mode::DataLocale, "fr...").is_err());
    let it = locale("fr-FR-u-rg-cazzzz");
    assert_eq!((it.data_locale(Priority::Language), it.data_locale(Priority::Region)), ("fr-FR".into(), "fr-CA".into()));
}

#[test]
fn preferences() {
    for (text, calendar) in [
        ("ethiopic-amete-alem", Some("ethioaa")),
        ("ethiopic", Some("ethiopic")),
        ("islamicc", Some("islamic-civil")),
        ("islamic-rgsa", Some("islamic-rgsa")),
        ("islamic", Some("islamic")),
        ("abc", None),
    ] {
        let found = locale(&format!("fr-u-ca-{text}")).calendar_algorithm();
        assert_eq!(found.as_ref().map(Value::as_str), calendar);
    }
}
