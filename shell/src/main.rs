//! The command `duration`.
#![no_main]
mod lists;
mod options;
mod patterns;
mod reading;

use duration_str::{FORMAT_BUFFER_SIZE, TimeUnit};
use options::{Choices, Refused, Round};
use reading::{Refusal, Value};
use std::ffi::{CStr, OsStr, OsString, c_char, c_int};
use std::fs::File;
use std::io::{self, BufRead, BufReader, BufWriter, IsTerminal, Read, Write};
use std::os::fd::AsFd;
use std::os::unix::ffi::OsStrExt;

/// The most bytes of a line in which a text is read, without the byte that ends the line.
const LONGEST: usize = 1 << 20;

/// C's `main`. Rust's would open /dev/null for a closed stream, and would ignore the signal for a
/// pipe that nobody reads.
#[unsafe(no_mangle)]
extern "C" fn main(count: c_int, words: *const *const c_char) -> c_int {
    // SAFETY: C calls `main` with `count` words, each with a zero at its end.
    let word =
        |at| OsStr::from_bytes(unsafe { CStr::from_ptr(*words.add(at)) }.to_bytes()).to_os_string();
    run((0..count as usize).map(word)).unwrap_or_else(|error| {
        let _ = writeln!(io::stderr(), "duration: {error}");
        2
    })
}

fn run(words: impl Iterator<Item = OsString>) -> io::Result<c_int> {
    let choices = match Choices::of(words) {
        Ok(choices) => choices,
        Err(told) => {
            let (stream, status) = if told.use_stderr() {
                (file(io::stderr()), 2)
            } else {
                (file(io::stdout()), 0)
            };
            stream?.write_all(told.to_string().replace('\0', "").as_bytes())?;
            return Ok(status);
        }
    };
    let output: Box<dyn Write> = if choices.quiet {
        Box::new(io::sink())
    } else {
        Box::new(file(io::stdout())?)
    };
    let mut run = Run {
        output: BufWriter::with_capacity(1 << 16, output),
        end: if choices.zero_terminated { 0 } else { b'\n' },
        is_open: false,
        choices: &choices,
        total: 0,
        mended: 0,
        has_refused: false,
    };
    run.all()?;
    if choices.count_mended {
        let what = if run.mended == 1 { "text" } else { "texts" };
        writeln!(io::stderr(), "duration: {} {what} mended", run.mended)?;
    }
    Ok(run.has_refused.into())
}

/// A stream as a file, or an error if the stream is closed. The streams of Rust's library hide that
/// error.
fn file(stream: impl AsFd) -> io::Result<File> {
    Ok(stream.as_fd().try_clone_to_owned()?.into())
}

fn of_input(error: io::Error) -> io::Error {
    io::Error::other(format!("standard input: {error}"))
}

/// A line in pieces. The field is `open`, `text` and `close`. Around the text are blanks and
/// quotation marks.
#[derive(Clone, Copy, Default)]
struct Cut<'a> {
    before: &'a [u8],
    open: &'a [u8],
    text: &'a [u8],
    close: &'a [u8],
    after: &'a [u8],
}

impl<'a> Cut<'a> {
    /// The line with this in place of the text.
    fn with(self, text: &'a [u8]) -> [&'a [u8]; 5] {
        [self.before, self.open, text, self.close, self.after]
    }
}

struct Run<'a> {
    output: BufWriter<Box<dyn Write>>,
    end: u8,
    /// Whether the answer gets no line end.
    is_open: bool,
    choices: &'a Choices,
    /// The sum of the durations, if only that is printed.
    total: u128,
    /// How many texts were mended and read.
    mended: u64,
    has_refused: bool,
}

impl Run<'_> {
    fn all(&mut self) -> io::Result<()> {
        if let Some(shell) = self.choices.completions {
            self.output
                .write_all(options::completions(shell).as_bytes())?;
        } else if self.choices.pattern {
            let pattern = patterns::pattern(
                self.choices.reading(),
                self.choices.require_unit,
                self.choices.more_names,
            );
            self.put(&[pattern.as_bytes()])?;
        } else if self.choices.texts.is_empty() {
            let input = file(io::stdin()).map_err(of_input)?;
            self.lines(BufReader::with_capacity(1 << 16, input))?;
        }
        for (text, number) in self.choices.texts.iter().zip(1..) {
            self.line(
                text.as_bytes()
                    .strip_prefix(options::ESCAPE)
                    .unwrap_or(text.as_bytes()),
                number,
            )?;
        }
        if self.choices.sum && !self.has_refused {
            self.put_sum()?;
        }
        self.output.flush()
    }

    fn put_sum(&mut self) -> io::Result<()> {
        self.is_open = false;
        if let Ok(nanos) = u64::try_from(self.total) {
            let mut buffer = [0; FORMAT_BUFFER_SIZE];
            let printed = self.choices.printed(nanos, &mut buffer);
            return self.put(&[printed.as_bytes()]);
        }
        self.has_refused = true;
        if self.choices.quiet {
            return Ok(());
        }
        io::stderr().write_all(b"duration: sum of over 584 years\n")
    }

    /// Returns the line without the carriage return at its end, as lines end on Windows. A field is
    /// cut without it anyway.
    fn without_return<'a>(&self, line: &'a [u8]) -> &'a [u8] {
        if self.choices.field.is_some() || self.end != b'\n' {
            return line;
        }
        line.strip_suffix(b"\r").unwrap_or(line)
    }

    fn lines(&mut self, mut input: BufReader<File>) -> io::Result<()> {
        let mut line = Vec::new();
        for number in 1.. {
            if !self.next(&mut input, &mut line)? {
                break;
            }
            let text = line.strip_suffix(&[self.end]).unwrap_or(&line);
            self.is_open = self.stays_open(text.len() == line.len());
            let is_header = number <= self.choices.header.unwrap_or(0);
            if text.len() > LONGEST {
                if !is_header {
                    let refusal = Refusal::new("LINE_TOO_LONG", "line of over 1,048,576 bytes");
                    self.tell(refusal, b"", number)?;
                }
                self.pass(&mut input, &mut line, is_header)?;
            } else if !is_header {
                self.line(self.without_return(text), number)?;
            } else if !self.choices.sum {
                self.put(&[text])?;
            }
        }
        Ok(())
    }

    /// Reads a line, or the beginning of a line that is too long.
    fn next(&mut self, input: &mut BufReader<File>, line: &mut Vec<u8>) -> io::Result<bool> {
        line.clear();
        // A search that compares byte by byte finds the end of a short line quickly.
        if let Some(last) = input.buffer().iter().position(|byte| *byte == self.end) {
            line.extend_from_slice(&input.buffer()[..=last]);
            input.consume(last + 1);
            return Ok(true);
        }
        // All answers so far are written before the program waits for more input.
        self.output.flush()?;
        let read = input.take(LONGEST as u64 + 1).read_until(self.end, line);
        Ok(read.map_err(of_input)? > 0)
    }

    /// Reads the rest of a line that is too long, and writes the whole line if it stays.
    fn pass(
        &mut self,
        input: &mut BufReader<File>,
        line: &mut Vec<u8>,
        is_header: bool,
    ) -> io::Result<()> {
        let refused = if is_header && !self.choices.sum {
            Refused::Keep
        } else {
            self.choices.refused()
        };
        while !line.is_empty() && !line.ends_with(&[self.end]) {
            if refused == Refused::Keep {
                self.output.write_all(line)?;
            }
            self.next(input, line)?;
        }
        self.is_open = self.stays_open(line.is_empty());
        let rest = line.strip_suffix(&[self.end]).unwrap_or(b"");
        match refused {
            Refused::Keep => self.put(&[rest]),
            Refused::Empty => self.put(&[]),
            Refused::Drop => Ok(()),
        }
    }

    /// Whether the answer to the input's last line gets no line end, if that line has none.
    fn stays_open(&self, lacks_end: bool) -> bool {
        lacks_end && (self.choices.field.is_some() || self.choices.header.is_some())
    }

    fn line(&mut self, line: &[u8], number: u64) -> io::Result<()> {
        let Some(cut) = self.cut(line) else {
            self.tell(Refusal::new("NO_FIELD", "no such field"), line, number)?;
            return match self.choices.refused() {
                Refused::Drop => Ok(()),
                _ => self.put(&[line]),
            };
        };
        match reading::read(cut.text, self.choices) {
            Err(refusal) => self.refuse(refusal, cut, number),
            Ok(value) => {
                self.mended += u64::from(value.mended.is_some());
                self.answer(cut, &value)
            }
        }
    }

    fn answer(&mut self, cut: Cut, value: &Value) -> io::Result<()> {
        if self.choices.sum {
            self.total += u128::from(value.nanos);
            return Ok(());
        }
        if self.choices.json {
            return self.object(value);
        }
        let mut buffer = [0; FORMAT_BUFFER_SIZE];
        let printed = self.choices.printed(value.nanos, &mut buffer);
        self.put_converted(cut, printed.as_bytes())
    }

    /// A number needs no quotation marks around it, unless it has the delimiter. awk would take it
    /// for 0 in them.
    fn put_converted(&mut self, cut: Cut, printed: &[u8]) -> io::Result<()> {
        let has_delimiter = self
            .choices
            .delimiter
            .is_some_and(|delimiter| printed.contains(&delimiter));
        let is_bare = self.choices.to.is_some() && !has_delimiter;
        match (around_a_mark(cut.open), around_a_mark(cut.close)) {
            (Some([first, second]), Some([third, last])) if is_bare => {
                self.put(&[cut.before, first, second, printed, third, last, cut.after])
            }
            _ => self.put(&cut.with(printed)),
        }
    }

    /// `nanoseconds` and `rest_ns` are strings, since some programs drop digits of long numbers.
    fn object(&mut self, value: &Value) -> io::Result<()> {
        let nanos = value.nanos;
        self.output.write_all(b"{\"text\":")?;
        serde_json::to_writer(&mut self.output, value.text)?;
        if self.choices.mend {
            self.output.write_all(b",\"mended\":")?;
            serde_json::to_writer(&mut self.output, &value.mended)?;
        }
        let seconds = options::in_unit(nanos, TimeUnit::Second, None, Round::Down);
        let mark = if self.choices.to.is_some() { "" } else { "\"" };
        let mut buffer = [0; FORMAT_BUFFER_SIZE];
        let printed = self.choices.printed(nanos, &mut buffer);
        let mut breakdown = self.choices.breakdown(nanos);
        write!(
            self.output,
            r#","nanoseconds":"{nanos}","seconds":{seconds},"printed":{mark}{printed}{mark},"parts":["#
        )?;
        let mut comma = "";
        for (unit, count) in breakdown.by_ref() {
            write!(self.output, r#"{comma}{{"count":{count},"unit":"{unit}"}}"#)?;
            comma = ",";
        }
        write!(self.output, r#"],"rest_ns":"{}"}}"#, breakdown.rest())?;
        self.put(&[])
    }

    fn cut<'a>(&self, line: &'a [u8]) -> Option<Cut<'a>> {
        let Some(number) = self.choices.field else {
            return Some(Cut {
                text: line,
                ..Cut::default()
            });
        };
        let is_blank = |byte: &u8| b" \t\r\n".contains(byte);
        let field = match self.choices.delimiter {
            Some(delimiter) => divided(line, delimiter, number)?,
            None => {
                let mut fields = line.split(is_blank).filter(|field| !field.is_empty());
                fields.nth(number - 1)?
            }
        };
        let is_inside = |byte: &u8| !b" \t\r\n\"".contains(byte);
        let start = field.as_ptr().addr() - line.as_ptr().addr();
        let first = field.iter().position(is_inside).unwrap_or(0);
        let end = field.iter().rposition(is_inside).map_or(0, |last| last + 1);
        Some(Cut {
            before: &line[..start],
            open: &field[..first],
            text: &field[first..end],
            close: &field[end..],
            after: &line[start + field.len()..],
        })
    }

    fn refuse(&mut self, refusal: Refusal, cut: Cut, number: u64) -> io::Result<()> {
        self.tell(refusal, cut.text, number)?;
        match self.choices.refused() {
            Refused::Keep => self.put(&cut.with(cut.text)),
            Refused::Empty => self.put_empty(cut),
            Refused::Drop => Ok(()),
        }
    }

    /// Between blanks a `-` takes the place of the field, since otherwise the next field would. With
    /// a delimiter the field keeps its quotation marks only if there are two: with another number
    /// of them, CSV's next lines could belong to it.
    fn put_empty(&mut self, cut: Cut) -> io::Result<()> {
        if self.choices.field.is_some() && self.choices.delimiter.is_none() {
            return self.put(&[cut.before, b"-", cut.after]);
        }
        let edges = [cut.open, cut.close];
        let marks = edges.concat().iter().filter(|byte| **byte == b'"').count();
        if marks == 2 {
            return self.put(&cut.with(b""));
        }
        let [open, close] = edges.map(without_marks);
        self.put(&[cut.before, &open, &close, cut.after])
    }

    fn tell(&mut self, refusal: Refusal, text: &[u8], number: u64) -> io::Result<()> {
        self.has_refused = true;
        let what = if self.choices.texts.is_empty() {
            "line"
        } else {
            "argument"
        };
        if self.choices.json {
            return self.put(&[refusal.json(text, what, number).as_bytes()]);
        }
        if self.choices.quiet {
            return Ok(());
        }
        // On a terminal, the answers so far should stand above what is told.
        self.output.flush()?;
        if self.choices.json_errors {
            let object = refusal.json(text, what, number) + "\n";
            return io::stderr().write_all(object.as_bytes());
        }
        let advice = if self.is_cut(&refusal, number) {
            " (put a text with blanks in quotation marks)"
        } else if self.is_perhaps_header(&refusal, number) {
            " (for a header, write --header)"
        } else {
            ""
        };
        let field = self
            .choices
            .field
            .map_or(String::new(), |field| format!(", field {field}"));
        let report = if io::stderr().is_terminal() {
            refusal.report()
        } else {
            String::new()
        };
        let (gap, said) = if report.contains('\n') {
            ('\n', report)
        } else {
            (' ', refusal.message)
        };
        io::stderr()
            .write_all(format!("duration: {what} {number}{field}:{gap}{said}{advice}\n").as_bytes())
    }

    /// Whether the shell has perhaps cut a text at a blank before this argument, as in `3m + 13s`
    /// and `5 min`.
    fn is_cut(&self, refusal: &Refusal, number: u64) -> bool {
        let texts = &self.choices.texts;
        let Some(before) = number.checked_sub(2).and_then(|at| texts.get(at as usize)) else {
            return false;
        };
        let ends_with_digit = before.as_bytes().last().is_some_and(u8::is_ascii_digit);
        refusal.first().is_some_and(|first| match first {
            '+' | '*' => true,
            _ => ends_with_digit && (first.is_ascii_alphabetic() || !first.is_ascii()),
        })
    }

    /// Whether a refused field perhaps belongs to a header.
    fn is_perhaps_header(&self, refusal: &Refusal, number: u64) -> bool {
        let is_column = self.choices.field.is_some() && self.choices.texts.is_empty();
        is_column && number == 1 && self.choices.header.is_none() && refusal.is_word()
    }

    fn put(&mut self, answer: &[&[u8]]) -> io::Result<()> {
        answer
            .iter()
            .try_for_each(|slice| self.output.write_all(slice))?;
        // jq would take a NUL for the end of its input, without an error.
        let end = if self.choices.json { b'\n' } else { self.end };
        self.output.write_all(if self.is_open {
            b""
        } else {
            std::slice::from_ref(&end)
        })
    }
}

/// If there is one quotation mark, returns what is before it and after it.
fn around_a_mark(edge: &[u8]) -> Option<[&[u8]; 2]> {
    let mark = edge.iter().position(|byte| *byte == b'"')?;
    let after = &edge[mark + 1..];
    (!after.contains(&b'"')).then_some([&edge[..mark], after])
}

fn without_marks(edge: &[u8]) -> Vec<u8> {
    edge.iter().copied().filter(|byte| *byte != b'"').collect()
}

/// The field with this number, from 1.
fn divided(mut line: &[u8], delimiter: u8, number: usize) -> Option<&[u8]> {
    for _ in 1..number {
        line = line.get(first_len(line, delimiter) + 1..)?;
    }
    Some(&line[..first_len(line, delimiter)])
}

/// The length of the first field.
fn first_len(line: &[u8], delimiter: u8) -> usize {
    let end = || line.iter().position(|byte| *byte == delimiter);
    quoted_len(line, delimiter)
        .or_else(end)
        .unwrap_or(line.len())
}

/// The length of the first field, if quotation marks stand around it, such as in `"a, b"`. Two of
/// them within it stand for one.
fn quoted_len(line: &[u8], delimiter: u8) -> Option<usize> {
    let mut rest = line.strip_prefix(b"\"").filter(|_| delimiter != b'"')?;
    loop {
        let mark = rest.iter().position(|byte| *byte == b'"')?;
        rest = &rest[mark + 1..];
        match rest {
            [b'"', after @ ..] => rest = after,
            [] | b"\r" => return Some(line.len()),
            _ if rest[0] == delimiter => return Some(line.len() - rest.len()),
            _ => return None,
        }
    }
}
