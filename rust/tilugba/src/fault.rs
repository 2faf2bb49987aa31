//! What stops a command.

use std::fmt;

/// Why a command gave no answer. [`Fault::status`] is the exit status that the program has for it,
/// and it is shown as the program's line.
///
/// Places of files count from 1, in the order of the command's form.
#[derive(Clone, Debug, PartialEq, Eq)]
#[non_exhaustive]
pub enum Fault {
    /// A contract, or code, is not accepted: the rule that it breaks, and the node at which it
    /// does.
    Refused {
        /// The contract.
        name: String,
        /// `sort`, `time`, `scale`, `size` or `bound`.
        rule: String,
        /// Counted from 0 in the order of first bytes.
        node: u64,
    },
    /// No command takes these words.
    Usage,
    /// A file was not lent.
    Read {
        /// Its place.
        place: usize,
    },
    /// A file is longer than 16,777,216 bytes.
    TooLong {
        /// Its place.
        place: usize,
    },
    /// A text does not parse.
    Text {
        /// `syntax`, `unknown` and so on.
        kind: String,
        /// From 1.
        line: u64,
        /// From 1, in bytes.
        column: u64,
    },
    /// A record of a table is refused.
    Row {
        /// The place of the table.
        place: usize,
        /// From 1, with the header.
        record: u64,
        /// `shape`, `label`, `day`, `value`, `bounds`, `conflict` and so on.
        kind: String,
        /// Of a conflict, the record that it contradicts.
        earlier: Option<u64>,
    },
    /// A fixing is missing.
    Missing {
        /// The label.
        label: String,
        /// The day as a number, also of a portfolio with an origin.
        day: i64,
        /// Of `scenarios`, the first scenario that lacks one.
        scenario: Option<String>,
    },
    /// Memory did not suffice.
    OutOfMemory,
    /// A name of the command line is not declared.
    Unknown {
        /// The name.
        name: String,
    },
    /// A day of the command line is out of range.
    Day {
        /// The day as it was given.
        word: String,
    },
    /// There are too many scenarios for code that may be worth so much.
    Scenarios {
        /// Their number.
        count: u64,
    },
    /// A word is not UTF-8.
    NotUtf8,
    /// The text does not have the form that the command's answer has: it was asked for rows of
    /// another command.
    OtherForm {
        /// The status.
        status: u32,
        /// The text.
        text: String,
    },
}

impl Fault {
    /// The exit status that the program has for it; of an answer of another form, that of the
    /// answer.
    pub fn status(&self) -> u32 {
        match self {
            Fault::Refused { .. } => 1,
            Fault::Usage => 2,
            Fault::Read { .. } => 3,
            Fault::TooLong { .. } => 5,
            Fault::Text { .. } => 6,
            Fault::Row { .. } => 7,
            Fault::Missing { .. } => 8,
            Fault::OutOfMemory => 9,
            Fault::Unknown { .. } => 10,
            Fault::Day { .. } => 11,
            Fault::Scenarios { .. } => 12,
            Fault::NotUtf8 => 13,
            Fault::OtherForm { status, .. } => *status,
        }
    }

    /// The fault of a status that is not 0, from the line that was written.
    pub(crate) fn of(status: u32, text: &str) -> Fault {
        read(status, text.trim_end_matches('\n')).unwrap_or_else(|| Fault::OtherForm {
            status,
            text: text.to_owned(),
        })
    }
}

fn read(status: u32, line: &str) -> Option<Fault> {
    let words: Vec<&str> = line.split(' ').collect();
    let number = |word: &str| word.parse::<u64>().ok();
    let place = |word: &str| word.parse::<usize>().ok();
    Some(match (status, words.as_slice()) {
        (1, ["fault", "refused", name, rule, "node", node]) => Fault::Refused {
            name: (*name).to_owned(),
            rule: (*rule).to_owned(),
            node: number(node)?,
        },
        (2, ["fault", "usage"]) => Fault::Usage,
        (3, ["fault", "read", at]) => Fault::Read { place: place(at)? },
        (5, ["fault", "too", "long", at]) => Fault::TooLong { place: place(at)? },
        (6, ["fault", "text", kind, "line", line, "column", column]) => Fault::Text {
            kind: (*kind).to_owned(),
            line: number(line)?,
            column: number(column)?,
        },
        (7, ["fault", "row", "file", at, "record", record, kind, rest @ ..]) => Fault::Row {
            place: place(at)?,
            record: number(record)?,
            kind: (*kind).to_owned(),
            earlier: match rest {
                [] => None,
                ["with", earlier] => Some(number(earlier)?),
                _ => return None,
            },
        },
        (8, ["fault", "missing", label, day, rest @ ..]) => Fault::Missing {
            label: (*label).to_owned(),
            day: day.parse().ok()?,
            scenario: match rest {
                [] => None,
                ["in", name] => Some((*name).to_owned()),
                _ => return None,
            },
        },
        (9, _) => Fault::OutOfMemory,
        (10, ["fault", "unknown", name]) => Fault::Unknown {
            name: (*name).to_owned(),
        },
        (11, ["fault", "day", word]) => Fault::Day {
            word: (*word).to_owned(),
        },
        (12, ["fault", "scenarios", count]) => Fault::Scenarios {
            count: number(count)?,
        },
        (13, _) => Fault::NotUtf8,
        _ => return None,
    })
}

impl fmt::Display for Fault {
    fn fmt(&self, f: &mut fmt::Formatter<'_>) -> fmt::Result {
        match self {
            Fault::Refused { name, rule, node } => {
                write!(f, "fault refused {name} {rule} node {node}")
            }
            Fault::Usage => f.write_str("fault usage"),
            Fault::Read { place } => write!(f, "fault read {place}"),
            Fault::TooLong { place } => write!(f, "fault too long {place}"),
            Fault::Text { kind, line, column } => {
                write!(f, "fault text {kind} line {line} column {column}")
            }
            Fault::Row {
                place,
                record,
                kind,
                earlier,
            } => {
                write!(f, "fault row file {place} record {record} {kind}")?;
                earlier.map_or(Ok(()), |it| write!(f, " with {it}"))
            }
            Fault::Missing {
                label,
                day,
                scenario,
            } => {
                write!(f, "fault missing {label} {day}")?;
                scenario.as_ref().map_or(Ok(()), |it| write!(f, " in {it}"))
            }
            Fault::OutOfMemory => f.write_str("memory did not suffice"),
            Fault::Unknown { name } => write!(f, "fault unknown {name}"),
            Fault::Day { word } => write!(f, "fault day {word}"),
            Fault::Scenarios { count } => write!(f, "fault scenarios {count}"),
            Fault::NotUtf8 => f.write_str("a word is not UTF-8"),
            Fault::OtherForm { status, text } => {
                write!(f, "an answer of another form, with status {status}: {text}")
            }
        }
    }
}

impl std::error::Error for Fault {}
