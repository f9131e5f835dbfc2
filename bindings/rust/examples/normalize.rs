//! Prints the normal text of each argument as a locale, or why there is none.

use icu_locale_c::{normalize, Mode};
use std::process::ExitCode;

fn main() -> ExitCode {
    let mut ended = ExitCode::SUCCESS;
    for text in std::env::args().skip(1) {
        match normalize(Mode::Locale, &text) {
            Ok(normal) => println!("{normal}"),
            Err(refusal) => {
                println!("{refusal}");
                ended = ExitCode::FAILURE;
            }
        }
    }
    ended
}
