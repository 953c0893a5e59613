//! The worked schedules, which the tests read where they run: of each object in `data`, and of the page of schedules.
//! Each stands below a heading. The line of a move has beside it what is printed for the move.

use std::alloc::Global;
use std::fs;
use std::process::Abort;
use std::rt::Files;

/// A worked schedule.
#[derive(Drop)]
pub struct Worked<'a> {
    /// What it shows.
    pub shows: &'a str,
    pub schedule: String,
    /// The text that is written for it.
    pub transcript: String,
}

/// Returns the pages with worked schedules.
pub fn pages<R: Abort + AllocGlobal + Files + Clone + Drop>(rt: &R) -> Vec<String> {
    let mut pages = Vec::new(rt.alloc());
    for page in fs::read_dir(rt, "data").expect(rt, "pages") {
        let page = page.expect(rt, "a page");
        let text = fs::read_to_string(rt, page.path()).expect(rt, page.file_name());
        pages.push(text).expect(rt, "memory");
    }
    assert!(rt; !pages.is_empty(), "no pages");
    pages
}

/// Returns the worked schedules of a page.
pub fn worked_on<'a>(rt: &impl Abort, alloc: Global, page: &'a str) -> Vec<Worked<'a>> {
    let mut found = Vec::new(alloc);
    for section in page.split("\n### ").skip(1) {
        let shows = section.lines().next().expect(rt, "a heading");
        let block = section.split("```\n").nth(1).expect(rt, shows);
        found
            .push(worked_in(rt, alloc, shows, block))
            .expect(rt, "memory");
    }
    assert!(rt; !found.is_empty(), "no schedules");
    found
}

/// Reads the header, then a move and what is printed for it on each line, with two spaces between them, and the last line
/// of the transcript. A line may end with a remark.
fn worked_in<'a>(rt: &impl Abort, alloc: Global, shows: &'a str, block: &str) -> Worked<'a> {
    let mut schedule = String::new(alloc);
    let mut transcript = String::new(alloc);
    for (number, line) in block.lines().enumerate() {
        let written = match line.split_once("  ") {
            None if number == 0 => writeln!(schedule, "{line}"),
            None => writeln!(transcript, "{line}"),
            Some((entry, printed)) => {
                let party = entry.split(' ').next().expect(rt, shows);
                let event = printed.split("  #").next().expect(rt, shows).trim();
                let written = writeln!(schedule, "{entry}");
                writeln!(transcript, "{number} {party} {event}").and(written)
            }
        };
        written.expect(rt, "memory");
    }
    Worked {
        shows,
        schedule,
        transcript,
    }
}
