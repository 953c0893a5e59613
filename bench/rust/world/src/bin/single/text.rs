//! The lines of the output, made without the formatter of `std`, in which `listed` spends most of its time.

use spin_world_rust::event::{Answer, End, Event, Numbers, Outcome};

/// Room for the longest line: up to six numbers, and the words between them.
pub const LONGEST_LINE: usize = 160;

/// Puts the line of an event behind the text.
pub fn push_event(text: &mut Vec<u8>, event: &Event) {
    push_number(text, event.line);
    text.push(b' ');
    push_number(text, event.party);
    text.push(b' ');
    push_outcome(text, event.outcome);
    text.extend_from_slice(b": ");
    push_numbers(text, event.numbers);
    text.push(b'\n');
}

/// Puts the last line behind the text.
pub fn push_end(text: &mut Vec<u8>, end: &End) {
    text.extend_from_slice(b"end: ");
    push_numbers(text, end.numbers);
    text.push(b' ');
    push_value(text, end.value);
    text.push(b'\n');
}

fn push_outcome(text: &mut Vec<u8>, outcome: Outcome) {
    match outcome {
        Outcome::Skipped => text.extend_from_slice(b"passed over"),
        Outcome::Begun => text.extend_from_slice(b"begun"),
        Outcome::GoingOn => text.extend_from_slice(b"going on"),
        Outcome::Answered(answer, began) => {
            text.extend_from_slice(b"answer ");
            push_answer(text, answer);
            text.extend_from_slice(b" from ");
            push_number(text, began);
        }
        Outcome::Value(value) => push_value(text, value),
        Outcome::Written => text.extend_from_slice(b"written"),
        Outcome::Leaked => text.extend_from_slice(b"leaked"),
    }
}

fn push_answer(text: &mut Vec<u8>, answer: Answer) {
    match answer {
        Answer::Granted => text.extend_from_slice(b"granted"),
        Answer::Refused => text.extend_from_slice(b"refused"),
        Answer::Locked => text.extend_from_slice(b"locked"),
        Answer::Starved => text.extend_from_slice(b"starved"),
        Answer::Done => text.extend_from_slice(b"done"),
        Answer::Is(true) => text.extend_from_slice(b"true"),
        Answer::Is(false) => text.extend_from_slice(b"false"),
        Answer::Count(count) => push_number(text, count),
        Answer::Value(value) => push_value(text, Some(value)),
        Answer::NoValue => text.extend_from_slice(b"none"),
        Answer::Failed => text.extend_from_slice(b"err"),
        Answer::Leader => text.extend_from_slice(b"leader"),
        Answer::Follower => text.extend_from_slice(b"follower"),
    }
}

fn push_value(text: &mut Vec<u8>, value: Option<u64>) {
    text.extend_from_slice(b"value ");
    match value {
        Some(value) => push_number(text, value),
        None => text.extend_from_slice(b"none"),
    }
}

fn push_numbers(text: &mut Vec<u8>, Numbers(first, second): Numbers) {
    push_number(text, first);
    if let Some(second) = second {
        text.push(b' ');
        push_number(text, second);
    }
}

fn push_number(text: &mut Vec<u8>, number: u64) {
    let mut digits = [0; 20];
    let mut start = digits.len();
    let mut rest = number;
    loop {
        start -= 1;
        digits[start] = b'0' + (rest % 10) as u8;
        rest /= 10;
        if rest == 0 {
            break;
        }
    }
    text.extend_from_slice(&digits[start..]);
}
