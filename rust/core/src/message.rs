// Made by tools/erase of crates/duration_str_refusals/src/message.rt.
//! The message of a fault.

use crate::fault::Fault;
use crate::layout::Layout;
use crate::slice::chars_before;
use core::fmt;

impl Fault<'_> {
    pub(crate) fn layout(&self) -> Layout {
        let Some(place) = self.cause.place() else {
            return Layout::Line;
        };
        if self.text.as_bytes().contains(&b'\n') {
            return Layout::Byte { place };
        }
        Layout::Caret {
            spaces: chars_before(self.text, place),
        }
    }

    /// Writes the message. It fails only if the sink does.
    fn write_message<S: Sink>(&self, sink: &mut S) -> fmt::Result {
        let layout = self.layout();
        let line = self.cause.line();
        if let Layout::Line = layout {
            return sink.put(line);
        }
        // Most messages are short and fit into this buffer. Then one call of the sink is enough,
        // which takes less time than several.
        if let Some(message) = layout.message(&mut [0; 256], self.text, line) {
            return sink.put(message);
        }
        match layout {
            Layout::Caret { spaces } => write_caret(sink, self.text, spaces, line),
            // Messages without a caret fit.
            _ => unreachable!(),
        }
    }
}

/// Prints the cause's line. If the fault has a place, the text is printed above the line, and
/// between them a caret, after one space for each character before the place. But if the text has a
/// line feed, the place is printed before the line instead, as in `byte 5: expected number`.
///
/// ```text
/// 3ms-2ms
///    ^
/// expected ['+', '*']
/// ```
impl fmt::Display for Fault<'_> {
    fn fmt(&self, f: &mut fmt::Formatter<'_>) -> fmt::Result {
        self.write_message(f)
    }
}

/// What a message is written to.
trait Sink {
    fn put(&mut self, piece: &str) -> fmt::Result;
}

impl Sink for fmt::Formatter<'_> {
    fn put(&mut self, piece: &str) -> fmt::Result {
        self.write_str(piece)
    }
}

fn write_caret<S: Sink>(sink: &mut S, text: &str, spaces: usize, line: &str) -> fmt::Result {
    sink.put(text)?;
    sink.put("\n")?;
    write_spaces(sink, spaces)?;
    sink.put("^\n")?;
    sink.put(line)
}

fn write_spaces<S: Sink>(sink: &mut S, count: usize) -> fmt::Result {
    let mut left = count;
    while left > 64 {
        sink.put(short_run(64))?;
        left -= 64;
    }
    sink.put(short_run(left))
}

fn short_run(count: usize) -> &'static str {
    &SPACES[..count]
}

const SPACES: &str = "                                                                ";
