//! Answers each line of standard input, for tools/try_bindings.
//!
//! `answers langid|locale|data`: the normal form of each line, or `! ` and the words of the refusal.
//! `answers lines-langid|lines-locale|lines-data`: the same as `langid`, `locale` or `data`, by one call for all lines.
//! `answers faults-langid|faults-locale|faults-data`: where the fault of each line stands, the bits of the kinds that may
//! stand there, and the number of the hint, as `3 5 4126 0`; `-` if it has none.
//! `answers pairs-langid|pairs-locale|pairs-data`: of each two lines the byte order of the first, normalized, against
//! the second, whether they mean the same, and the order of both normal forms, as `-1 0 -1`. A refusal stands in the
//! place of the last, or of all three if the first is refused.
//!
//! `answers objects`: all parts of the locale that the line means, or `! ` and the words of the refusal.
//! `answers two-objects`: of each two lines the order of both locales, whether they are equal and are hashed alike, the
//! byte order of the first against the second line, and whether that line means it.
//! `answers script`: what each step on one of four locales gives, and the text of the locale after it.
//! Fields stand between tabs. `tools/object_model.py` says what is wanted.

use icu_locale_c::extensions::unicode::{Attribute, Key, Value};
use icu_locale_c::subtags::{Language, Region, Script, Variant};
use icu_locale_c::{base_name_of, keyword_of, language_of, matches, parent, region_of, script_of, variants_of};
use icu_locale_c::{check, compare, normalize, normalize_many, normalizing_eq, strict_cmp};
use icu_locale_c::{Locale, Mode, ParseError, Priority};
use std::collections::hash_map::DefaultHasher;
use std::hash::{Hash, Hasher};
use std::io::{self, BufRead, BufWriter, Write};
use std::mem;

fn answer(mode: Mode, line: &[u8]) -> String {
    let normal = normalize(mode, line);
    assert_eq!(check(mode, line).err(), normal.as_ref().err().cloned());
    normal.unwrap_or_else(refused)
}

/// The answers to all lines by one call, with the errors of a call each.
fn answer_all(mode: Mode, lines: &[Vec<u8>]) -> Vec<String> {
    let normal = normalize_many(mode, lines).expect("there is memory");
    let answers: Vec<_> = normal.iter().map(|it| it.map(str::to_owned)).collect();
    assert!(answers.iter().zip(lines).all(|(it, line)| it.as_ref().err() == normalize(mode, line).as_ref().err()));
    answers.into_iter().map(|it| it.unwrap_or_else(refused)).collect()
}

fn fault(mode: Mode, line: &[u8]) -> String {
    let at = |error: ParseError| {
        let (range, expected, hint) = (error.range(), error.expected(), error.hint());
        let meant = hint.map_or(String::new(), |it| format!("; {it}"));
        let place = if range.len() == line.len() { String::new() } else { format!(" at {range:?}") };
        assert!(error.to_string().ends_with(&format!("{place}: {expected} may stand here{meant}")));
        let bits: u32 = expected.iter().map(|it| 1 << it as u32).sum();
        format!("{} {} {bits} {}", range.start, range.end, hint.map_or(0, |it| it as u32 + 1))
    };
    normalize(mode, line).map_or_else(at, |_| "-".to_owned())
}

fn compare_pair(mode: Mode, first: &[u8], second: &[u8]) -> Result<String, ParseError> {
    let order = strict_cmp(mode, first, second)? as i8;
    let same = normalizing_eq(mode, first, second)? as u8;
    let both = match compare(mode, first, second) {
        Ok(both) => (both as i8).to_string(),
        Err(error) => refused(error),
    };
    Ok(format!("{order} {same} {both}"))
}

fn joined<T: ToString>(parts: &[T]) -> String {
    parts.iter().map(T::to_string).collect::<Vec<_>>().join(",")
}

/// What a locale feeds a hasher: the library's hash.
struct Kept(u64);

impl Hasher for Kept {
    fn write(&mut self, _: &[u8]) {
        panic!("a locale feeds one number");
    }

    fn write_u64(&mut self, number: u64) {
        self.0 = number;
    }

    fn finish(&self) -> u64 {
        self.0
    }
}

fn parts(it: &Locale) -> String {
    let optional = |part: Option<String>| part.unwrap_or_default();
    let keywords: Vec<String> = it.keywords().iter().map(|(key, value)| format!("{key}={value}")).collect();
    let fields: Vec<String> = it.fields().iter().map(|(key, value)| format!("{key}={value}")).collect();
    let others: Vec<String> = ('0'..='z')
        .filter(|singleton| !singleton.is_ascii_uppercase())
        .filter_map(|singleton| it.other(singleton))
        .collect();
    let preference = |value: Option<Value>| value.map_or_else(|| "-".to_owned(), |it| it.to_string());
    let mut hash = Kept(0);
    it.hash(&mut hash);
    if it.is_well_formed() {
        see_texts(it);
    }
    let fields = [
        it.to_string(),
        it.base_name(),
        it.language().to_string(),
        optional(it.script().map(|it| it.to_string())),
        optional(it.region().map(|it| it.to_string())),
        joined(&it.variants()),
        joined(&it.attributes()),
        joined(&keywords),
        optional(it.transform_language()),
        fields.join(","),
        it.private_extension(),
        others.join(","),
        it.data_locale(Priority::Language),
        it.data_locale(Priority::Region),
        preference(it.calendar_algorithm()),
        preference(it.hour_cycle()),
        preference(it.numbering_system()),
        format!("{}{}", it.is_unknown() as u8, it.is_well_formed() as u8),
        format!("{:016x}", hash.finish()),
    ];
    fields.join("\t")
}

/// The functions on texts give the parts that the locale has, which the text means.
fn see_texts(it: &Locale) {
    let text = it.to_string().to_ascii_uppercase();
    let optional = |part: Result<Option<String>, ParseError>| part.unwrap().unwrap_or_default();
    assert_eq!(base_name_of(Mode::Locale, &text).unwrap(), it.base_name());
    assert_eq!(language_of(Mode::Locale, &text).unwrap(), it.language().to_string());
    assert_eq!(optional(script_of(Mode::Locale, &text)), it.script().map_or(String::new(), |it| it.to_string()));
    assert_eq!(optional(region_of(Mode::Locale, &text)), it.region().map_or(String::new(), |it| it.to_string()));
    assert_eq!(variants_of(Mode::Locale, &text).unwrap().replace('-', ","), joined(&it.variants()));
    for (key, value) in it.keywords() {
        assert_eq!(keyword_of(Mode::Locale, &text, key.as_str()).unwrap(), Some(value.to_string()));
    }
    match parent(Mode::Locale, &text).unwrap() {
        Some(above) => assert!(matches(&text, &above).unwrap() && above != it.to_string()),
        None => assert!(it.is_unknown()),
    }
}

/// The comparison of two locales, of which all forms are to agree.
fn compare_objects(one: &Locale, other: &Locale) -> String {
    let hash = |it: &Locale| {
        let mut state = DefaultHasher::new();
        it.hash(&mut state);
        state.finish()
    };
    let order = one.total_cmp(other);
    assert_eq!(
        (one.cmp(other), one.partial_cmp(other), other.cmp(one)),
        (order, Some(order), order.reverse())
    );
    format!(
        "{} {} {}",
        order as i8,
        (one == other) as u8,
        (hash(one) == hash(other)) as u8
    )
}

/// The order of the data locales of both, by each priority, and of that of the first against the text of the other's.
fn compare_data(one: &Locale, other: &Locale) -> String {
    let order = |priority| {
        let text = other.data_locale(priority);
        let against = one.data_strict_cmp(priority, text.as_bytes());
        assert_eq!(other.data_total_cmp(priority, one), one.data_total_cmp(priority, other).reverse());
        format!("{} {}", one.data_total_cmp(priority, other) as i8, against as i8)
    };
    format!("{} {}", order(Priority::Language), order(Priority::Region))
}

/// The byte order against a text, and whether the text means the locale.
fn against(it: &Locale, text: &[u8]) -> String {
    let is_meant = it.normalizing_eq_utf8(text);
    assert!(std::str::from_utf8(text).map_or(true, |text| it.normalizing_eq(text) == is_meant));
    format!("{} {}", it.strict_cmp(text) as i8, is_meant as u8)
}

fn two_objects(first: &[u8], second: &[u8]) -> Result<String, ParseError> {
    let one = Locale::try_from_utf8(first)?;
    let both = Locale::try_from_utf8(second).map_or_else(|_| "- - -".to_owned(), |other| compare_objects(&one, &other));
    Ok(format!("{both} {}", against(&one, second)))
}

/// A part that is cleared by an empty text.
fn optional<T>(text: &[u8], parsed: fn(&[u8]) -> Result<T, ParseError>) -> Result<Option<T>, ParseError> {
    if text.is_empty() {
        Ok(None)
    } else {
        parsed(text).map(Some)
    }
}

fn found(is_found: bool) -> String {
    if is_found { "ok" } else { "none" }.to_owned()
}

fn bit(is_so: bool) -> String {
    (is_so as u8).to_string()
}

fn lossy(text: &[u8]) -> String {
    String::from_utf8_lossy(text).into_owned()
}

fn number(word: &[u8]) -> usize {
    word.first().map_or(0, |digit| (digit - b'0') as usize)
}

/// The text of a step, and the number of the other locale that it may name.
fn given<'a>(words: &[&'a [u8]]) -> (&'a [u8], usize) {
    let text = words.get(2).copied().unwrap_or(b"");
    (text, if text.len() == 1 { number(text) % 4 } else { 0 })
}

/// Takes a step that changes a locale and tells nothing, and returns whether it is one.
fn take_change(slots: &mut [Locale; 4], words: &[&[u8]]) -> Result<bool, ParseError> {
    let (at, (text, other)) = (number(words[1]), given(words));
    match words[0] {
        b"parse" => slots[at] = Locale::try_from_utf8(text)?,
        b"language" => slots[at].set_language(optional(text, Language::try_from_utf8)?.unwrap_or_default()),
        b"script" => slots[at].set_script(optional(text, Script::try_from_utf8)?),
        b"region" => slots[at].set_region(optional(text, Region::try_from_utf8)?),
        b"add-variant" => {
            let variant = Variant::try_from_utf8(text)?;
            let was_there = slots[at].variants().contains(&variant);
            assert_ne!(slots[at].push_variant(variant), was_there);
        }
        b"clear-variants" => slots[at].clear_variants(),
        b"add-attribute" => {
            slots[at].push_attribute(Attribute::try_from_utf8(text)?);
        }
        b"clear-attributes" => slots[at].clear_attributes(),
        b"transform-language" => slots[at].set_transform_language(&lossy(text))?,
        b"private" => slots[at].set_private_extension(&lossy(text))?,
        b"set-field" => slots[at].set_field(&lossy(text), &lossy(words[3]))?,
        b"clear-fields" => slots[at].clear_fields(),
        b"set-other" => slots[at].set_other(&lossy(text))?,
        b"extend" => {
            let from = slots[other].clone();
            slots[at].extend_unicode(&from);
        }
        b"set-keyword" => {
            let (key, value) = (Key::try_from_utf8(text)?, Value::try_from_utf8(words[3])?);
            let before = slots[at].keyword(&key);
            assert_eq!(slots[at].set_keyword(key, value), before);
        }
        b"clear-keywords" => slots[at].clear_keywords(),
        b"copy" => slots[at] = slots[other].clone(),
        b"move" => slots[at] = mem::take(&mut slots[other]),
        _ => return Ok(false),
    }
    Ok(true)
}

fn take_step(slots: &mut [Locale; 4], words: &[&[u8]]) -> Result<String, ParseError> {
    if take_change(slots, words)? {
        return Ok(found(true));
    }
    let (at, (text, other)) = (number(words[1]), given(words));
    let value = |read: Option<String>| read.map_or_else(|| found(false), |it| format!("={it}"));
    Ok(match words[0] {
        b"remove-variant" => found(Variant::try_from_utf8(text).is_ok_and(|it| slots[at].remove_variant(&it))),
        b"has-variant" => bit(Variant::try_from_utf8(text).is_ok_and(|it| slots[at].has_variant(&it))),
        b"remove-attribute" => found(Attribute::try_from_utf8(text).is_ok_and(|it| slots[at].remove_attribute(&it))),
        b"has-attribute" => bit(Attribute::try_from_utf8(text).is_ok_and(|it| slots[at].has_attribute(&it))),
        b"get-field" => value(slots[at].field(&lossy(text))),
        b"remove-field" => found(slots[at].remove_field(&lossy(text)).is_some()),
        b"get-other" => {
            let (singleton, it) = (lossy(text).chars().next().unwrap_or('!'), &slots[at]);
            assert_eq!(it.has_other(singleton), it.other(singleton).is_some());
            value(it.other(singleton))
        }
        b"remove-other" => found(slots[at].remove_other(lossy(text).chars().next().unwrap_or('!'))),
        b"compare-data" => compare_data(&slots[at], &slots[other]),
        b"get-keyword" => {
            let read = Key::try_from_utf8(text).ok().and_then(|it| slots[at].keyword(&it));
            value(read.map(|it| it.to_string()))
        }
        b"remove-keyword" => found(Key::try_from_utf8(text).is_ok_and(|it| slots[at].remove_keyword(&it).is_some())),
        b"compare" => compare_objects(&slots[at], &slots[other]),
        b"against" => against(&slots[at], text),
        b"parts" => parts(&slots[at]),
        other => panic!("no step {}", String::from_utf8_lossy(other)),
    })
}

fn refused(error: ParseError) -> String {
    format!("! {}", error.kind())
}

fn answer_script(lines: &[Vec<u8>]) -> Vec<String> {
    let mut slots: [Locale; 4] = Default::default();
    let mut answer = |line: &Vec<u8>| {
        let words: Vec<&[u8]> = line.split(|it| *it == b'\t').collect();
        let answer = take_step(&mut slots, &words).unwrap_or_else(refused);
        format!("{answer}\t{}", slots[number(words[1])])
    };
    lines.iter().map(&mut answer).collect()
}

fn mode_of(word: &str) -> Mode {
    match word {
        "langid" => Mode::Identifier,
        "locale" => Mode::Locale,
        "data" => Mode::DataLocale,
        _ => {
            panic!("usage: answers [lines-|pairs-|faults-]langid|locale|data, or answers objects|two-objects|script")
        }
    }
}

/// The answers to each two lines.
fn of_pairs(lines: &[Vec<u8>], answer: impl Fn(&[u8], &[u8]) -> Result<String, ParseError>) -> Vec<String> {
    lines.chunks_exact(2).map(|pair| answer(&pair[0], &pair[1]).unwrap_or_else(refused)).collect()
}

fn answer_texts(word: &str, lines: &[Vec<u8>]) -> Vec<String> {
    if let Some(word) = word.strip_prefix("faults-") {
        lines.iter().map(|line| fault(mode_of(word), line)).collect()
    } else if let Some(word) = word.strip_prefix("lines-") {
        answer_all(mode_of(word), lines)
    } else if let Some(word) = word.strip_prefix("pairs-") {
        of_pairs(lines, |first, second| compare_pair(mode_of(word), first, second))
    } else {
        lines.iter().map(|line| answer(mode_of(word), line)).collect()
    }
}

fn main() -> io::Result<()> {
    let word = std::env::args().nth(1).unwrap_or_default();
    let lines: Vec<Vec<u8>> = io::stdin().lock().split(b'\n').collect::<io::Result<_>>()?;
    let object = |line: &Vec<u8>| Locale::try_from_utf8(line).map_or_else(refused, |it| parts(&it));
    let answers: Vec<String> = match word.as_str() {
        "objects" => lines.iter().map(object).collect(),
        "two-objects" => of_pairs(&lines, two_objects),
        "script" => answer_script(&lines),
        word => answer_texts(word, &lines),
    };
    let mut out = BufWriter::new(io::stdout().lock());
    for it in answers {
        writeln!(out, "{it}")?;
    }
    out.flush()
}
