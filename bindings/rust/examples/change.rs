//! Prints a locale in Britain's form, with the Buddhist calendar: `change en-us` prints `en-GB-u-ca-buddhist`.

use icu_locale_c::extensions::unicode::{Key, Value};
use icu_locale_c::subtags::Region;
use icu_locale_c::{Locale, ParseError};
use std::process::ExitCode;

fn change(word: &str) -> Result<Locale, ParseError> {
    let mut locale: Locale = word.parse()?;
    locale.set_region(Some("GB".parse::<Region>()?));
    locale.set_keyword("ca".parse::<Key>()?, "buddhist".parse::<Value>()?);
    Ok(locale)
}

fn main() -> ExitCode {
    let mut ended = ExitCode::SUCCESS;
    for word in std::env::args().skip(1) {
        match change(&word) {
            Ok(locale) => println!("{locale}"),
            Err(refusal) => {
                println!("{refusal}");
                ended = ExitCode::FAILURE;
            }
        }
    }
    ended
}
