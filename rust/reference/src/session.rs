//! The session program: forms in, answers out, one a line.

use std::fmt;
use std::io::{self, BufRead, Write};

use crate::{count, del, drop_oldest, flush, format, get, put, Geometry, Lookup, Refusal};

/// The length of each of the session's two areas.
pub const AREA_BYTES: usize = 32_768;

/// A line that is a form.
#[derive(Clone, Copy, Debug, PartialEq, Eq)]
pub enum Form {
    /// `(format (parts s) (page P) (pages Q) (kept K) (bits M) (hashes h) (list D))`
    Format(Geometry),
    /// `(put key value)`
    Put(u64, u64),
    /// `(get key)`
    Get(u64),
    /// `(del key)`
    Del(u64),
    /// `(flush partition)`
    Flush(u32),
    /// `(count partition)`
    Count(u32),
    /// `(drop partition)`
    Drop(u32),
}

impl Form {
    /// The form that a line, without its byte 10, spells. Any other text is none.
    pub fn read(line: &[u8]) -> Option<Form> {
        let mut text = Text(line);
        let form = match text.word()? {
            b"(format" => Form::Format(text.geometry()?),
            b"(put" => Form::Put(text.figure()?, text.fixed(b" ")?.figure()?),
            b"(get" => Form::Get(text.figure()?),
            b"(del" => Form::Del(text.figure()?),
            b"(flush" => Form::Flush(text.short_figure()?),
            b"(count" => Form::Count(text.short_figure()?),
            b"(drop" => Form::Drop(text.short_figure()?),
            _ => return None,
        };
        text.fixed(b")")?;
        text.0.is_empty().then_some(form)
    }
}

/// The rest of a line.
struct Text<'a>(&'a [u8]);

impl<'a> Text<'a> {
    /// Takes the text before the first space, and that space.
    fn word(&mut self) -> Option<&'a [u8]> {
        let end = self.0.iter().position(|&byte| byte == b' ')?;
        let (word, rest) = self.0.split_at(end);
        self.0 = &rest[1..];
        Some(word)
    }

    /// Takes exactly this text.
    fn fixed(&mut self, text: &[u8]) -> Option<&mut Self> {
        self.0 = self.0.strip_prefix(text)?;
        Some(self)
    }

    /// Takes a decimal figure below 2^64 without leading zeros.
    fn figure(&mut self) -> Option<u64> {
        let end = self.0.iter().position(|byte| !byte.is_ascii_digit());
        let (digits, rest) = self.0.split_at(end.unwrap_or(self.0.len()));
        if digits.is_empty() || digits.len() > 1 && digits[0] == b'0' {
            return None;
        }
        self.0 = rest;
        digits.iter().try_fold(0u64, |figure, digit| {
            figure.checked_mul(10)?.checked_add(u64::from(digit - b'0'))
        })
    }

    /// Takes a decimal figure below 2^32.
    fn short_figure(&mut self) -> Option<u32> {
        u32::try_from(self.figure()?).ok()
    }

    /// Takes format's seven parts, parted by one space, in their one order.
    fn geometry(&mut self) -> Option<Geometry> {
        Some(Geometry::new([
            self.part(b"(parts ")?,
            self.part(b" (page ")?,
            self.part(b" (pages ")?,
            self.part(b" (kept ")?,
            self.part(b" (bits ")?,
            self.part(b" (hashes ")?,
            self.part(b" (list ")?,
        ]))
    }

    fn part(&mut self, head: &[u8]) -> Option<u32> {
        let figure = self.fixed(head)?.short_figure()?;
        self.fixed(b")")?;
        Some(figure)
    }
}

/// What a line is answered with.
#[derive(Clone, Copy, Debug, PartialEq, Eq)]
pub enum Answer {
    /// An accepted format, put, del, flush or drop, with the pages written, or
    /// count, with the total.
    Done(u32),
    /// An accepted get.
    Lookup(Lookup),
    /// A refused call.
    Refused(Refusal),
    /// A line that is no form.
    Bad,
}

impl fmt::Display for Answer {
    fn fmt(&self, output: &mut fmt::Formatter<'_>) -> fmt::Result {
        match *self {
            Answer::Done(number) => write!(output, "(ok {number})"),
            Answer::Lookup(lookup) => write_lookup(output, lookup),
            Answer::Refused(refusal) => {
                let (number, reads) = (refusal.number(), refusal.reads());
                write!(output, "(refused {number} {reads})")
            }
            Answer::Bad => write!(output, "(bad)"),
        }
    }
}

/// A get's line, which ends with the comparisons (02, job 8).
fn write_lookup(output: &mut fmt::Formatter<'_>, lookup: Lookup) -> fmt::Result {
    match lookup {
        Lookup::Found {
            value,
            reads,
            comparisons,
            ..
        } => write!(output, "(found {value} {reads} {comparisons})"),
        Lookup::None { reads, comparisons } => write!(output, "(none {reads} {comparisons})"),
    }
}

/// A session with its two areas.
pub struct Session {
    memory: [u8; AREA_BYTES],
    flash: [u8; AREA_BYTES],
}

impl Default for Session {
    fn default() -> Self {
        Session::new()
    }
}

impl Session {
    /// A session over two areas of zero bytes.
    pub fn new() -> Self {
        Session {
            memory: [0; AREA_BYTES],
            flash: [0; AREA_BYTES],
        }
    }

    /// The memory area.
    pub fn memory(&self) -> &[u8] {
        &self.memory
    }

    /// The flash area.
    pub fn flash(&self) -> &[u8] {
        &self.flash
    }

    /// Makes the call that the line spells. A byte 10 at its end is left out.
    pub fn line(&mut self, line: &[u8]) -> Answer {
        let Some(form) = Form::read(line.strip_suffix(b"\n").unwrap_or(line)) else {
            return Answer::Bad;
        };
        self.call(form).unwrap_or_else(Answer::Refused)
    }

    fn call(&mut self, form: Form) -> Result<Answer, Refusal> {
        let (memory, flash) = (&mut self.memory[..], &mut self.flash[..]);
        Ok(match form {
            Form::Format(geometry) => {
                format(memory, flash, geometry)?;
                Answer::Done(0)
            }
            Form::Put(key, value) => Answer::Done(put(memory, flash, key, value)?),
            Form::Get(key) => Answer::Lookup(get(memory, flash, key)?),
            Form::Del(key) => {
                del(memory, flash, key)?;
                Answer::Done(0)
            }
            Form::Flush(partition) => Answer::Done(flush(memory, flash, partition)?),
            Form::Count(partition) => Answer::Done(count(memory, flash, partition)?),
            Form::Drop(partition) => {
                drop_oldest(memory, flash, partition)?;
                Answer::Done(0)
            }
        })
    }
}

/// Answers every line of the input over two new areas.
///
/// A line ends at byte 10 or at the end of input, so nothing after a last
/// byte 10 is no line, and an empty line elsewhere is a bad one.
pub fn run(mut input: impl BufRead, mut output: impl Write) -> io::Result<()> {
    let mut session = Session::new();
    let mut line = Vec::new();
    while input.read_until(b'\n', &mut line)? > 0 {
        writeln!(output, "{}", session.line(&line))?;
        line.clear();
    }
    output.flush()
}

/// The whole output for a whole input, by the same rule as [`run`].
pub fn answer_text(input: &[u8]) -> String {
    let mut session = Session::new();
    let lines = input.split_inclusive(|&byte| byte == b'\n');
    lines
        .map(|line| format!("{}\n", session.line(line)))
        .collect()
}
