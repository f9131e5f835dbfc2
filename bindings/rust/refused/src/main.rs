//! Refuses each request of the library for memory in turn, for `tools/try_bindings`.
//!
//! A call that returns a `Result` then returns an error of the kind `Refusal::OutOfMemory`, changes nothing, and leaves no block behind. Any
//! other call ends the process as the collections of the standard library do, so it is tried in a process of its own:
//! `refused NAME NUMBER` grants so many requests. The last line is the number of cases.

use icu_locale_c::extensions::unicode::{Attribute, Key, Value};
use icu_locale_c::subtags::{Language, Region, Script, Variant};
use icu_locale_c::{check, compare, normalize, normalize_many, normalizing_eq, strict_cmp};
use icu_locale_c::{Locale, Mode, ParseError, Refusal};
use std::env;
use std::os::raw::c_long;
use std::os::unix::process::ExitStatusExt;
use std::process::Command;

extern "C" {
    fn refusing_after(number: c_long);
    fn refusing_refused() -> c_long;
    fn refusing_live() -> c_long;
}

/// From now on so many requests are granted, and one is refused.
fn grant(number: c_long) {
    // SAFETY: it takes a number. No other thread runs.
    unsafe { refusing_after(number) }
}

fn is_refused() -> bool {
    // SAFETY: it takes nothing. No other thread runs.
    unsafe { refusing_refused() > 0 }
}

fn live() -> c_long {
    // SAFETY: as above.
    unsafe { refusing_live() }
}

const LONG: &str =
    "de-aaaaa-bbbbb-ccccc-ddddd-eeeee-b-foo-t-und-m0-abc-u-aaa-ca-aaa-bbb-ccc-ddd-eee-co-phonebk-x-a-b-c-d-e";
const STARTS: [&str; 4] = [
    "und",
    "en",
    "en-aaaaa-bbbbb-ccccc-ddddd",
    "en-aaaaa-bbbbb-ccccc-ddddd-eeeee-a-foo-t-de-m0-abc-abcdefgh-u-aaa-bbb-ccc-ddd-eee-ca-roc-nu-latn-x-a-b-c-d-e",
];

fn locale(text: &str) -> Locale {
    text.parse().expect("it is a locale")
}

type Trying = fn(&mut Locale) -> Result<(), ParseError>;

/// The calls that return why they are refused.
const TRYING: &[Trying] = &[
    |_| Locale::try_from_str(LONG).map(drop),
    |_| Locale::try_from_utf8(LONG.as_bytes()).map(drop),
    |_| LONG.parse::<Locale>().map(drop),
    |_| Locale::normalize(LONG).map(drop),
    |_| Locale::normalize_utf8(LONG.as_bytes()).map(drop),
    |_| "fr".parse::<Language>().map(drop),
    |_| "latn".parse::<Script>().map(drop),
    |_| "us".parse::<Region>().map(drop),
    |_| "posix".parse::<Variant>().map(drop),
    |_| "ca".parse::<Key>().map(drop),
    |_| "aaa-bbb-ccc-ddd-eee".parse::<Value>().map(drop),
    |_| "foo".parse::<Attribute>().map(drop),
    |it| it.set_transform_language("de-aaaaa-bbbbb-ccccc-ddddd-eeeee"),
    |it| it.set_field("h0", "aaa-bbb-ccc-ddd-eee"),
    |it| it.set_private_extension("x-a-b-c-d-e-f"),
    |it| it.set_other("c-foo-bar"),
    |it| it.set_other("a-bar"),
    |_| check(Mode::Locale, LONG),
    |_| normalize(Mode::Locale, LONG).map(drop),
    |_| strict_cmp(Mode::Locale, LONG, LONG).map(drop),
    |_| normalizing_eq(Mode::Locale, "en-x-a-b-c-d-e-f", LONG).map(drop),
    |_| compare(Mode::Locale, LONG, LONG).map(drop),
    |_| normalize_many(Mode::Locale, &["EN-us", LONG]).map(drop),
    |_| normalize_many(Mode::Locale, &["EN-us", "en\n", LONG]).map(drop),
];

/// Parts, parsed before requests are refused.
struct Parts {
    region: Option<Region>,
    variant: Variant,
    key: Key,
    value: Value,
    attributes: [Attribute; 2],
    locale: Locale,
}

impl Parts {
    fn parsed() -> Result<Self, ParseError> {
        Ok(Parts {
            region: Some("US".parse()?),
            variant: "posix".parse()?,
            key: "hc".parse()?,
            value: "aaa-bbb-ccc-ddd-eee".parse()?,
            attributes: ["foo".parse()?, "bbb".parse()?],
            locale: LONG.parse()?,
        })
    }
}

type Ending = fn(&mut Locale, Parts);

/// The calls that end the process.
const ENDING: &[(&str, Ending)] = &[
    ("clone", |it, _| drop(it.clone())),
    ("set_region", |it, parts| it.set_region(parts.region)),
    ("push_variant", |it, parts| assert!(it.push_variant(parts.variant))),
    ("set_keyword", |it, parts| drop(it.set_keyword(parts.key, parts.value))),
    ("push_attribute", |it, parts| assert!(it.push_attribute(parts.attributes[0]))),
    ("remove_attribute", |it, parts| {
        it.remove_attribute(&parts.attributes[1]);
    }),
    ("extend_unicode", |it, parts| it.extend_unicode(&parts.locale)),
    ("normalizing_eq", |it, _| assert!(!it.normalizing_eq("fr-a-bcd"))),
];

/// Refuses each request of a call that returns why, and returns how many cases that were.
fn try_each(start: &str, call: Trying) -> usize {
    for granted in 0.. {
        let mut it = locale(start);
        let (held, text) = (live(), it.to_string());
        grant(granted);
        let answer = call(&mut it);
        let was_refused = is_refused();
        grant(-1);
        let kind = answer.map_err(|it| it.kind());
        assert_eq!(kind, if was_refused { Err(Refusal::OutOfMemory) } else { Ok(()) });
        if !was_refused {
            return granted as usize + 1;
        }
        assert_eq!((it.to_string(), live()), (text, held));
    }
    unreachable!()
}

/// Refuses each request of a call that ends the process, in other processes, and returns how many cases that were.
fn end_each(name: &str) -> usize {
    let this = env::current_exe().expect("the path of this program");
    for granted in 0..100 {
        let ran = Command::new(&this).args([name, &granted.to_string()]).output().expect("it runs");
        let said = String::from_utf8_lossy(&ran.stderr);
        if ran.status.success() {
            assert!(granted > 0, "{name} makes no request");
            return granted;
        }
        assert_eq!(ran.status.signal(), Some(6), "{name}, {granted}: {said}");
        assert!(said.contains("memory allocation of"), "{name}, {granted}: {said}");
    }
    unreachable!()
}

/// Calls with so many requests granted.
fn end(name: &str, granted: c_long) {
    let (_, call) = ENDING.iter().find(|it| it.0 == name).expect("a name of the list");
    for start in STARTS {
        let mut it = locale(start);
        let parts = Parts::parsed().expect("they are parts");
        grant(granted);
        call(&mut it, parts);
        grant(-1);
    }
}

fn main() {
    let words: Vec<String> = env::args().skip(1).collect();
    if let [name, granted] = &words[..] {
        return end(name, granted.parse().expect("a number"));
    }
    let before = live();
    let pairs = STARTS.iter().flat_map(|start| TRYING.iter().map(move |call| (start, call)));
    let tried: usize = pairs.map(|(start, call)| try_each(start, *call)).sum();
    assert_eq!(live(), before);
    let ended: usize = ENDING.iter().map(|(name, _)| end_each(name)).sum();
    println!("{}", tried + ended);
}
