//! Many texts at once.

use crate::error::result;
use crate::{check, look_at_version, normalize, sys, Mode, ParseError, Refusal};

/// From how many bytes on lines are given to the library.
const AT_ONCE: usize = 65536;
/// An answer has at most so many bytes more than its line.
const MORE: usize = 39;

/// What [`normalize_many`] found of each text.
#[derive(Clone, Debug)]
pub struct NormalTexts<'a, T> {
    mode: Mode,
    texts: &'a [T],
    /// A line for each text: its normal form, or what begins with `!`.
    answers: String,
}

impl<T: AsRef<[u8]>> NormalTexts<'_, T> {
    /// The normal form of each text, in their order, or why it is refused.
    pub fn iter(&self) -> impl Iterator<Item = Result<&str, ParseError>> + '_ {
        let answers = self.answers.split_terminator('\n');
        self.texts.iter().zip(answers).map(|(text, answer)| self.answer_of(text.as_ref(), answer))
    }

    /// An error is made when it is asked for, with the place of the fault.
    fn answer_of<'b>(&self, text: &[u8], answer: &'b str) -> Result<&'b str, ParseError> {
        if !answer.starts_with('!') {
            return Ok(answer);
        }
        check(self.mode, text)?;
        Err(ParseError::of(Refusal::AnotherLibrary, &[]))
    }
}

/// Normalizes many texts: what [`normalize`] gives of each, in a part of its time. No text has a memory of its own.
///
/// Refused texts are found as the answers are gone through. The error here is of no text: the library was out of memory, or
/// is of another header.
///
/// ```
/// use icu_locale_c::{normalize_many, Mode};
///
/// # fn main() -> Result<(), icu_locale_c::ParseError> {
/// let texts = ["EN-us", "zh-hant-TW", "en-US-foo"];
/// let normal = normalize_many(Mode::Locale, &texts)?;
/// assert_eq!(normal.iter().flatten().collect::<Vec<_>>(), ["en-US", "zh-Hant-TW"]);
///
/// let (at, error) = normal.iter().enumerate().find_map(|(at, it)| Some((at, it.err()?))).unwrap();
/// let said = "Invalid subtag: 'en-US-foo' at 6..9: a variant or an extension may stand here";
/// assert_eq!((at, error.to_string().as_str()), (2, said));
/// assert!(normal.iter().collect::<Result<Vec<_>, _>>().is_err());
/// # Ok(())
/// # }
/// ```
pub fn normalize_many<T: AsRef<[u8]>>(mode: Mode, texts: &[T]) -> Result<NormalTexts<'_, T>, ParseError> {
    look_at_version()?;
    let (mut lines, mut count, mut answers) = (Vec::new(), 0, Vec::new());
    for text in texts.iter().map(AsRef::as_ref) {
        let is_line = !text.contains(&b'\n');
        if !is_line || lines.len() >= AT_ONCE {
            answer_lines(mode, &lines, count, &mut answers)?;
            lines.clear();
            count = 0;
        }
        if is_line {
            lines.extend_from_slice(text);
            lines.push(b'\n');
            count += 1;
        } else {
            answer_alone(mode, text, &mut answers)?;
        }
    }
    answer_lines(mode, &lines, count, &mut answers)?;
    let answers = String::from_utf8(answers).map_err(|_| ParseError::of(Refusal::AnotherLibrary, &[]))?;
    Ok(NormalTexts { mode, texts, answers })
}

/// Adds the answers to so many lines.
fn answer_lines(mode: Mode, lines: &[u8], count: usize, answers: &mut Vec<u8>) -> Result<(), ParseError> {
    let (start, room) = (answers.len(), lines.len() + MORE * count);
    answers.resize(start + room, 0);
    let mut needed = 0;
    // SAFETY: pointers and lengths are those of slices, and what is written to is borrowed alone.
    let status = unsafe {
        sys::icu_locale_normalize_lines(
            mode.number(),
            lines.as_ptr(),
            lines.len(),
            answers[start..].as_mut_ptr(),
            room,
            &mut needed,
        )
    };
    answers.truncate(start + needed);
    result(status, &[])
}

/// Adds the answer to a text that holds a newline, so that it cannot be a line.
fn answer_alone(mode: Mode, text: &[u8], answers: &mut Vec<u8>) -> Result<(), ParseError> {
    match normalize(mode, text) {
        Ok(normal) => answers.extend_from_slice(normal.as_bytes()),
        Err(error) if error.is_of_text() => answers.push(b'!'),
        Err(error) => return Err(error),
    }
    answers.push(b'\n');
    Ok(())
}

#[cfg(test)]
mod tests {
    use super::*;

    /// Texts that cannot be lines, or look like answers.
    fn hostile() -> Vec<Vec<u8>> {
        let variants = (10000..15000).map(|it| format!("-v{it}"));
        let mut texts: Vec<Vec<u8>> = [
            "", "en\n", "\n", "\n\n", "en\nfr", "en-a-\n\n-foo", "en-a-foo-\n", "en\r", "\r\n", "! Invalid subtag", "!",
            "en-a-!!-foo", "en-\0-US", "en-\u{e9}", "EN-us",
        ]
        .map(|it| it.as_bytes().to_vec())
        .into();
        texts.extend([b"\xff\xfe".to_vec(), b"\xed\xa0\x80".to_vec(), b"en-x".repeat(50_000)]);
        texts.push(format!("en{}", variants.collect::<String>()).into_bytes());
        texts
    }

    #[test]
    fn each_text_is_answered_as_alone() {
        let mut texts = hostile();
        texts.extend(std::iter::repeat(b"DE-at".to_vec()).take(40_000));
        texts.extend(hostile().into_iter().rev());
        for mode in [Mode::Identifier, Mode::Locale, Mode::DataLocale] {
            let normal = normalize_many(mode, &texts).unwrap();
            assert_eq!(normal.iter().count(), texts.len());
            for (it, text) in normal.iter().zip(&texts) {
                assert_eq!(it.map(str::to_owned), normalize(mode, text));
            }
        }
        let normal = normalize_many(Mode::Locale, &texts[5..6]).unwrap();
        assert_eq!(normal.iter().collect::<Vec<_>>(), [Ok("en-a-foo")]);
        assert_eq!(normalize_many::<&str>(Mode::Locale, &[]).unwrap().iter().count(), 0);
    }

    #[test]
    fn an_error_has_its_place() {
        let texts = ["und-u-sd-gbeng", "en-US-toolonggg"];
        let normal = normalize_many(Mode::DataLocale, &texts).unwrap();
        let [first, second] = [0, 1].map(|at| normal.iter().nth(at).unwrap());
        assert_eq!((first, second.unwrap_err().range()), (Ok("und-GB-u-sd-gbeng"), 6..15));
    }
}
