//! Plays a schedule as one would write it first: it reads the whole input, checks all lines into a list of entries, and
//! then plays these and prints what comes of them.

use std::io::{BufRead, BufWriter, Write};
use std::process::ExitCode;

use spin_world_rust::entry::Entry;
use spin_world_rust::object::{self, Object, Opening, Player};
use spin_world_rust::program::{self, Fault};
use spin_world_rust::world::World;

/// How many bytes are written at a time.
const CHUNK: usize = 1 << 16;

/// The lines behind the header, and where their events are printed.
struct Listed<'a, L> {
    lines: L,
    output: &'a mut dyn Write,
}

impl<'a, L: Iterator<Item = &'a [u8]>> Player for Listed<'_, L> {
    type Played = ();

    fn play<O: Object>(self, opening: Opening<O>) -> Result<(), Fault> {
        let mut entries = Vec::new();
        for (number, line) in (2..).zip(self.lines) {
            let entry = Entry::<O>::read(line).ok_or(Fault::BadLine(number))?;
            entries.try_reserve(1)?;
            entries.push(entry);
        }
        let mut world = World::new(opening)?;
        let mut output = BufWriter::with_capacity(CHUNK, self.output);
        for entry in entries {
            writeln!(output, "{}", world.play(entry)).map_err(Fault::of_write)?;
        }
        writeln!(output, "{}", world.end()).map_err(Fault::of_write)?;
        output.flush().map_err(Fault::of_write)
    }
}

fn play(input: &mut dyn BufRead, output: &mut dyn Write) -> Result<(), Fault> {
    let mut text = Vec::new();
    input.read_to_end(&mut text).map_err(Fault::of_read)?;
    let text = text.strip_suffix(b"\n").unwrap_or(&text);
    let mut lines = text.split(|&byte| byte == b'\n');
    let header = lines.next().unwrap_or_default();
    object::play(header, Listed { lines, output })
}

fn main() -> ExitCode {
    program::run(play)
}
