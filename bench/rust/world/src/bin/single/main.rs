//! Plays a schedule in a single pass: it checks and plays line by line, and keeps the text of what comes of that until
//! the whole input is known to be good.

mod text;

use std::io::{self, BufRead, BufReader, Read, Write};
use std::process::ExitCode;

use spin_world_rust::entry::Entry;
use spin_world_rust::object::{self, Object, Opening, Player};
use spin_world_rust::program::{self, Fault};
use spin_world_rust::world::World;

/// How many bytes are read at a time.
const CHUNK: usize = 1 << 16;

/// What is read of a line at most. A longer one is bad, whatever it has.
const LONGEST_INPUT: u64 = 128;

/// The input, one line at a time.
struct Lines<R> {
    input: R,
    line: Vec<u8>,
}

impl<R: BufRead> Lines<R> {
    /// Reads the next line. `None`: the input is at its end.
    fn next_line(&mut self) -> Result<Option<&[u8]>, Fault> {
        self.line.clear();
        let mut line = self.input.by_ref().take(LONGEST_INPUT);
        let count = line
            .read_until(b'\n', &mut self.line)
            .map_err(Fault::of_read)?;
        let line = self.line.strip_suffix(b"\n").unwrap_or(&self.line);
        Ok((count > 0).then_some(line))
    }

    /// Reads the rest, and drops it.
    fn drain(&mut self) -> Result<(), Fault> {
        io::copy(&mut self.input, &mut io::sink()).map_err(Fault::of_read)?;
        Ok(())
    }
}

impl<R: BufRead> Player for &mut Lines<R> {
    type Played = Vec<u8>;

    fn play<O: Object>(self, opening: Opening<O>) -> Result<Vec<u8>, Fault> {
        let mut world = World::new(opening)?;
        let mut text = Vec::new();
        let mut number = 1;
        while let Some(line) = self.next_line()? {
            number += 1;
            let entry = Entry::<O>::read(line).ok_or(Fault::BadLine(number))?;
            text.try_reserve(text::LONGEST_LINE)?;
            text::push_event(&mut text, &world.play(entry));
        }
        text.try_reserve(text::LONGEST_LINE)?;
        text::push_end(&mut text, &world.end());
        Ok(text)
    }
}

fn play(input: &mut dyn BufRead, output: &mut dyn Write) -> Result<(), Fault> {
    let input = BufReader::with_capacity(CHUNK, input);
    let mut lines = Lines {
        input,
        line: Vec::new(),
    };
    let header = lines.next_line()?.unwrap_or_default().to_vec();
    let played = object::play(&header, &mut lines);
    if matches!(played, Err(Fault::BadLine(_))) {
        // A read that fails further on is told in place of the bad line.
        lines.drain()?;
    }
    let text = played?;
    output
        .write_all(&text)
        .and_then(|()| output.flush())
        .map_err(Fault::of_write)
}

fn main() -> ExitCode {
    program::run(play)
}
