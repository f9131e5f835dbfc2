//! The program `locale_normal` over the Rust crate, which tools/benchmark builds and measures.
//!
//! It is the quickest loop over the crate in stable Rust that we know, so that this library is
//! compared with the best that a caller of the crate can write:
//! - The input comes in blocks of 64 KiB. Masks of 64 bytes show where its lines end.
//! - A line that began in the block before is answered first, so no other line asks for it.
//! - A value is printed where it was parsed, by the crate's own `write_to`, and then dropped.
//! - The answers to a block are written at once, from room that is made before the first.
//! - Two loads that overlap copy a subtag, without a call and without a test of the room's bounds.
//! - A refusal and its newline are 48 constant bytes, stored whole and cut to length.
//!
//! Slower in trials, in instructions: a `String` that takes the text (7 % on plain lines), copies
//! by checked slices (14 %), a refusal out of line (5 % on refused lines), and a test of each line
//! for what is pending (1 %).
//!
//! In the mode `none` each line is answered by an empty one, which costs what the loop alone does.

use icu_locale_core::{DataLocale, LanguageIdentifier, Locale, ParseError};
use std::fmt;
use std::fs::File;
use std::io::{self, Read, Write};
use std::os::fd::AsFd;
use std::ptr::copy_nonoverlapping;
use writeable::Writeable;

const BLOCK: usize = 65536;
const LANES: usize = 64;

/// The bytes that count, and room behind them.
struct Replies {
    room: Vec<u8>,
    len: usize,
}

impl Replies {
    #[inline(always)]
    fn make_room(&mut self, more: usize) {
        if self.room.len() - self.len < more {
            self.grow(more);
        }
    }

    #[cold]
    #[inline(never)]
    fn grow(&mut self, more: usize) {
        let size = (self.len + more).max(2 * self.room.len());
        self.room.resize(size, 0);
    }

    /// Stores these bytes behind those that count, and counts the first of them.
    #[inline(always)]
    fn put(&mut self, bytes: &[u8], count: usize) {
        self.make_room(bytes.len());
        // SAFETY: `make_room` made room for all of them behind `len`.
        unsafe { copy(bytes.as_ptr(), self.room.as_mut_ptr().add(self.len), bytes.len()) };
        self.len += count;
    }
}

impl fmt::Write for Replies {
    #[inline(always)]
    fn write_str(&mut self, text: &str) -> fmt::Result {
        self.put(text.as_bytes(), text.len());
        Ok(())
    }

    #[inline(always)]
    fn write_char(&mut self, one: char) -> fmt::Result {
        self.write_str(one.encode_utf8(&mut [0; 4]))
    }
}

/// Copies bytes. Those of a subtag take no call.
///
/// # Safety
/// So many bytes can be read and written there, in places that do not overlap.
#[inline(always)]
unsafe fn copy(from: *const u8, to: *mut u8, count: usize) {
    // SAFETY: the first and the last bytes of each case are among so many.
    unsafe {
        match count {
            4..=8 => copy_ends::<4>(from, to, count - 4),
            2..=3 => copy_ends::<2>(from, to, count - 2),
            1 => *to = *from,
            _ => copy_nonoverlapping(from, to, count),
        }
    }
}

/// Copies the first `N` bytes, and those from a place on.
///
/// # Safety
/// As of `copy`, for as many bytes as end with the last of these.
#[inline(always)]
unsafe fn copy_ends<const N: usize>(from: *const u8, to: *mut u8, last: usize) {
    // SAFETY: the caller says so.
    unsafe {
        let ends = [from.cast::<[u8; N]>().read(), from.add(last).cast::<[u8; N]>().read()];
        to.cast::<[u8; N]>().write(ends[0]);
        to.add(last).cast::<[u8; N]>().write(ends[1]);
    }
}

/// Constant bytes that begin with these.
const fn padded(words: &[u8]) -> ([u8; 48], usize) {
    let mut bytes = [0; 48];
    let mut at = 0;
    while at < words.len() {
        bytes[at] = words[at];
        at += 1;
    }
    (bytes, words.len())
}

static REFUSALS: [([u8; 48], usize); 5] = [
    padded(b"! The given language subtag is invalid\n"),
    padded(b"! Invalid subtag\n"),
    padded(b"! Invalid extension\n"),
    padded(b"! Duplicated extension\n"),
    padded(b"! another refusal\n"),
];

#[inline(always)]
fn refuse(error: ParseError, replies: &mut Replies) {
    let (words, count) = &REFUSALS[match error {
        ParseError::InvalidLanguage => 0,
        ParseError::InvalidSubtag => 1,
        ParseError::InvalidExtension => 2,
        ParseError::DuplicatedExtension => 3,
        _ => 4,
    }];
    replies.put(words, *count);
}

#[inline(always)]
fn answer<T: Writeable>(parsed: Result<T, ParseError>, replies: &mut Replies) {
    match parsed {
        Ok(value) => {
            value.write_to(replies).expect("the replies take all");
            replies.put(b"\n", 1);
        }
        Err(error) => refuse(error, replies),
    }
}

/// A bit for each newline among these bytes.
#[inline(always)]
fn line_ends(lanes: &[u8; LANES]) -> u64 {
    use std::arch::x86_64::{_mm_cmpeq_epi8, _mm_loadu_si128, _mm_movemask_epi8, _mm_set1_epi8};
    let ends = |at: usize| {
        // SAFETY: each processor of this kind has these instructions, and 16 bytes stand there.
        let found = unsafe {
            let sixteen = _mm_loadu_si128(lanes[at..at + 16].as_ptr().cast());
            _mm_movemask_epi8(_mm_cmpeq_epi8(sixteen, _mm_set1_epi8(b'\n' as i8)))
        };
        u64::from(found as u32) << at
    };
    ends(0) | ends(16) | ends(32) | ends(48)
}

/// Answers the line that began in the block before, and returns where the next begins.
fn end_pending(
    block: &[u8],
    pending: &mut Vec<u8>,
    replies: &mut Replies,
    answer_line: &impl Fn(&[u8], &mut Replies),
) -> usize {
    let Some(end) = block.iter().position(|byte| *byte == b'\n') else {
        return 0;
    };
    pending.extend_from_slice(&block[..end]);
    answer_line(pending, replies);
    pending.clear();
    end + 1
}

/// Answers the lines that end in a block, and returns where the next begins. Behind the block
/// stand `LANES` bytes more, which belong to no line.
#[inline(always)]
fn feed(
    room: &[u8],
    count: usize,
    mut start: usize,
    replies: &mut Replies,
    answer_line: &impl Fn(&[u8], &mut Replies),
) -> usize {
    for base in (start..count).step_by(LANES) {
        let lanes = room[base..].first_chunk().expect("they stand behind the block");
        let mut ends = line_ends(lanes);
        if count - base < LANES {
            ends &= (1 << (count - base)) - 1;
        }
        while ends != 0 {
            let end = base + ends.trailing_zeros() as usize;
            ends &= ends - 1;
            answer_line(&room[start..end], replies);
            start = end + 1;
        }
    }
    start
}

fn run(answer_line: impl Fn(&[u8], &mut Replies)) -> io::Result<()> {
    let mut reader = File::from(io::stdin().as_fd().try_clone_to_owned()?);
    let mut writer = File::from(io::stdout().as_fd().try_clone_to_owned()?);
    let mut room = vec![0; BLOCK + LANES];
    let mut pending = Vec::new();
    let mut replies = Replies { room: vec![0; 2 * BLOCK], len: 0 };
    loop {
        replies.len = 0;
        let count = reader.read(&mut room[..BLOCK])?;
        if count == 0 {
            if !pending.is_empty() {
                answer_line(&pending, &mut replies);
            }
            return writer.write_all(&replies.room[..replies.len]);
        }
        let mut start = 0;
        if !pending.is_empty() {
            start = end_pending(&room[..count], &mut pending, &mut replies, &answer_line);
        }
        if pending.is_empty() {
            start = feed(&room, count, start, &mut replies, &answer_line);
        }
        pending.extend_from_slice(&room[start..count]);
        writer.write_all(&replies.room[..replies.len])?;
    }
}

fn main() -> io::Result<()> {
    match std::env::args().nth(1).as_deref() {
        Some("langid") => run(|line, to| answer(LanguageIdentifier::try_from_utf8(line), to)),
        Some("locale") => run(|line, to| answer(Locale::try_from_utf8(line), to)),
        Some("data") => run(|line, to| answer(DataLocale::try_from_utf8(line), to)),
        Some("none") => run(|line, to| {
            std::hint::black_box(line);
            to.put(b"\n", 1);
        }),
        _ => panic!("usage: rust_lines langid|locale|data|none"),
    }
}
