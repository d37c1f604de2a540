//! Mistakes about the two programs.

use super::Mistake;
use crate::model::planner::SIXTY_FOURTHS;
use crate::model::programs::{decimal, line, HEADER};
use crate::model::rules::{Model, RIGHT};

pub fn mistakes() -> Vec<Mistake> {
    vec![
        Mistake::new("list: places are printed from 0", PLACES_FROM_ZERO),
        Mistake::new("list: deadlines are printed in whole ticks", WHOLE_TICKS),
        Mistake::new("list: a refusal follows the header", HEADER_ON_REFUSAL),
        Mistake::new(
            "step: calls are answered after a refusal",
            ANSWERED_AFTER_REFUSAL,
        ),
        Mistake::new("step: the fresh start is answered", FRESH_ANSWERED),
        Mistake::new("step: a carriage return is taken off", RETURN_TAKEN_OFF),
        Mistake::new("step: blanks at the end are taken off", BLANKS_TAKEN_OFF),
        Mistake::new("step: empty lines are passed over", EMPTY_PASSED_OVER),
        Mistake::new("step: the last line needs its end", LAST_LINE_LOST),
        Mistake::new(
            "step: nothing after the last end is a line",
            NOTHING_IS_A_LINE,
        ),
        Mistake::new("step: a word may have any number of digits", ANY_DIGITS),
        Mistake::new("step: leading zeros are bad", LEADING_ZEROS_BAD),
        Mistake::new("step: a word over 32 bits wraps", WORD_WRAPS),
        Mistake::new("step: a word of no digits is 0", NO_DIGITS),
        Mistake::new("step: a bad line ends the run", BAD_LINE_ENDS),
    ]
}

const PLACES_FROM_ZERO: Model = Model {
    list_line: |_, place, task, deadline, criticality| {
        line(&format!("{place} {task} {deadline} {criticality}"))
    },
    ..RIGHT
};

const WHOLE_TICKS: Model = Model {
    list_line: |_, place, task, deadline, criticality| {
        RIGHT.list_line(place, task, deadline.div_ceil(SIXTY_FOURTHS), criticality)
    },
    ..RIGHT
};

const HEADER_ON_REFUSAL: Model = Model {
    list: |_, file| {
        let text = RIGHT.list(file);
        match text.starts_with("refused") {
            true => HEADER.to_string() + &text,
            false => text,
        }
    },
    ..RIGHT
};

const ANSWERED_AFTER_REFUSAL: Model = Model {
    step: |model, file, calls| {
        let mut text = RIGHT.step(file, calls);
        if model.tables_of(file).is_err() {
            for _ in model.lines(calls) {
                text += "refused 16 0\n";
            }
        }
        text
    },
    ..RIGHT
};

const FRESH_ANSWERED: Model = Model {
    step: |_, file, calls| {
        let text = RIGHT.step(file, calls);
        match RIGHT.list(file).starts_with("refused") {
            true => text,
            false => line("idle") + &text,
        }
    },
    ..RIGHT
};

const RETURN_TAKEN_OFF: Model = Model {
    call_of: |_, call_line| RIGHT.call_of(call_line.strip_suffix(b"\r").unwrap_or(call_line)),
    ..RIGHT
};

const BLANKS_TAKEN_OFF: Model = Model {
    call_of: |_, call_line| RIGHT.call_of(call_line.strip_suffix(b" ").unwrap_or(call_line)),
    ..RIGHT
};

const EMPTY_PASSED_OVER: Model = Model {
    lines: |_, calls| {
        let mut lines = RIGHT.lines(calls);
        lines.retain(|line| !line.is_empty());
        lines
    },
    ..RIGHT
};

/// What stands before, between and after the line ends.
fn all_lines(calls: &[u8]) -> Vec<Vec<u8>> {
    let lines = calls.split(|byte| *byte == b'\n');
    lines.map(<[u8]>::to_vec).collect()
}

const LAST_LINE_LOST: Model = Model {
    lines: |_, calls| {
        let mut lines = all_lines(calls);
        lines.pop();
        lines
    },
    ..RIGHT
};

const NOTHING_IS_A_LINE: Model = Model {
    lines: |_, calls| all_lines(calls),
    ..RIGHT
};

const ANY_DIGITS: Model = Model {
    word_of: |_, digits| {
        let zeros = digits.iter().take_while(|digit| **digit == b'0').count();
        let rest = &digits[zeros.min(digits.len().saturating_sub(1))..];
        RIGHT.word_of(rest)
    },
    ..RIGHT
};

const LEADING_ZEROS_BAD: Model = Model {
    word_of: |_, digits| {
        let leading = digits.len() > 1 && digits[0] == b'0';
        RIGHT.word_of(digits).filter(|_| !leading)
    },
    ..RIGHT
};

const WORD_WRAPS: Model = Model {
    word_of: |_, digits| {
        let well_formed = digits.len() == 10 && digits.iter().all(u8::is_ascii_digit);
        match well_formed {
            true => Some(decimal(digits) as u32),
            false => RIGHT.word_of(digits),
        }
    },
    ..RIGHT
};

const NO_DIGITS: Model = Model {
    word_of: |_, digits| match digits {
        [] => Some(0),
        _ => RIGHT.word_of(digits),
    },
    ..RIGHT
};

const BAD_LINE_ENDS: Model = Model {
    step: |_, file, calls| {
        let text = RIGHT.step(file, calls);
        let end = text
            .find("bad line\n")
            .map(|start| start + "bad line\n".len());
        text[..end.unwrap_or(text.len())].to_string()
    },
    ..RIGHT
};
