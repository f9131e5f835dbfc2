//! Locales and their parts by serde, in a format for people and in one of bytes, for tools/try_bindings. The last line is the
//! number of cases; the first that is not as wanted ends the program.

use icu_locale_c::extensions::unicode::{Attribute, Key, Value};
use icu_locale_c::subtags::{Language, Region, Script, Variant};
use icu_locale_c::Locale;
use serde::{de::DeserializeOwned, Serialize};
use std::collections::BTreeMap;
use std::fmt::Debug;

/// Whether the value is written as this JSON and read back, also from a reader; and in bytes as its text and the length of that.
fn there_and_back<T: Serialize + DeserializeOwned + PartialEq + Debug>(value: &T, text: &str) -> usize {
    let json = format!("{text:?}");
    assert_eq!(serde_json::to_string(value).unwrap(), json);
    assert_eq!(&serde_json::from_str::<T>(&json).unwrap(), value);
    assert_eq!(&serde_json::from_reader::<_, T>(json.as_bytes()).unwrap(), value);
    assert_eq!(&serde_json::from_value::<T>(text.into()).unwrap(), value);
    let bytes = [&(text.len() as u64).to_le_bytes(), text.as_bytes()].concat();
    assert_eq!(bincode::serialize(value).unwrap(), bytes);
    assert_eq!(&bincode::deserialize::<T>(&bytes).unwrap(), value);
    6
}

fn parsed<T: std::str::FromStr<Err = icu_locale_c::ParseError>>(text: &str) -> T {
    text.parse().unwrap()
}

/// What reading this JSON as a locale fails with.
fn refused(json: &str) -> String {
    serde_json::from_str::<Locale>(json).unwrap_err().to_string()
}

fn main() {
    let mut cases = there_and_back(&parsed::<Locale>("EN-us-u-ca-Buddhist"), "en-US-u-ca-buddhist");
    let long = format!("en-x{}", "-abcdefgh".repeat(9));
    cases += there_and_back(&Locale::default(), "und") + there_and_back(&parsed::<Locale>(&long), &long);
    cases += there_and_back(&parsed::<Language>("EN"), "en") + there_and_back(&parsed::<Script>("LATN"), "Latn");
    cases += there_and_back(&parsed::<Region>("us"), "US") + there_and_back(&parsed::<Variant>("POSIX"), "posix");
    cases += there_and_back(&parsed::<Key>("CA"), "ca") + there_and_back(&parsed::<Attribute>("FOO"), "foo");
    cases += there_and_back(&parsed::<Value>("Islamic-civil"), "islamic-civil") + there_and_back(&Value::default(), "");
    let names: BTreeMap<Locale, Option<Region>> = serde_json::from_str(r#"{"EN\u002dus": "us", "de": null}"#).unwrap();
    assert_eq!(serde_json::to_string(&names).unwrap(), r#"{"de":null,"en-US":"US"}"#);
    let said = "Invalid subtag: 'en-US-foo' at 6..9: a variant or an extension may stand here at line 1 column 11";
    assert_eq!(refused(r#""en-US-foo""#), said);
    assert!(refused("5").starts_with("invalid type: integer `5`, expected the text of a locale"));
    assert!(bincode::deserialize::<Locale>(&bincode::serialize("en-").unwrap()).is_err());
    println!("{}", cases + 4);
}
