//! The lines of answers as rows. Each row is shown as its line, so an answer is written again from
//! its rows.

use crate::decimal::{Day, Decimal};
use crate::fault::Fault;
use crate::Answer;
use std::fmt::{self, Display, Write};

/// A payment: a line of `flows` and of `settle`.
#[derive(Clone, Debug, PartialEq, Eq)]
pub struct Flow {
    /// The contract, or `*` where payments were added up.
    pub name: String,
    /// The day.
    pub day: Day,
    /// Who pays.
    pub payer: String,
    /// Who is paid.
    pub receiver: String,
    /// In what.
    pub asset: String,
    /// How much.
    pub amount: Decimal,
}

/// What a party is paid on a day in an asset, less what it pays: a line of `positions`.
#[derive(Clone, Debug, PartialEq, Eq)]
pub struct Position {
    /// The day.
    pub day: Day,
    /// The party.
    pub party: String,
    /// The asset.
    pub asset: String,
    /// How much; negative if it pays.
    pub amount: Decimal,
}

/// A line of `check`.
#[derive(Clone, Debug, PartialEq, Eq)]
pub enum Verdict {
    /// The contract is accepted.
    Accepted {
        /// The contract.
        name: String,
        /// Before this day, counted from the start, it pays nothing; without one it never pays
        /// anything.
        start: Option<u64>,
        /// How many decimals it pays with.
        scale: u64,
        /// The most that it pays over all days, for two parties and an asset.
        total: Decimal,
        /// After so many days it pays nothing.
        horizon: u64,
    },
    /// The contract is refused.
    Refused {
        /// The contract.
        name: String,
        /// The rule that it breaks.
        rule: String,
        /// The node at which it does.
        node: u64,
    },
}

/// The answer of `advance` and of `novate`.
#[derive(Clone, Debug, PartialEq, Eq)]
pub struct Advanced {
    /// What was due before the day.
    pub due: Vec<Flow>,
    /// The portfolio that is left.
    pub portfolio: String,
}

/// What code is worth in a scenario.
#[derive(Clone, Debug, PartialEq, Eq)]
pub struct Named {
    /// The scenario.
    pub name: String,
    /// The value.
    pub value: Decimal,
}

/// The answer of `scenarios`.
#[derive(Clone, Debug, PartialEq, Eq)]
pub struct Scenarios {
    /// The value in each scenario, in the order of the table.
    pub values: Vec<Named>,
    /// Their exact sum.
    pub total: Decimal,
    /// The sum over their number, rounded.
    pub mean: Decimal,
    /// The first with the least value.
    pub least: Named,
    /// The first with the greatest value.
    pub greatest: Named,
}

impl Display for Flow {
    fn fmt(&self, f: &mut fmt::Formatter<'_>) -> fmt::Result {
        let Flow {
            name,
            day,
            payer,
            receiver,
            asset,
            amount,
        } = self;
        write!(f, "{name},{day},{payer},{receiver},{asset},{amount}")
    }
}

impl Display for Position {
    fn fmt(&self, f: &mut fmt::Formatter<'_>) -> fmt::Result {
        let Position {
            day,
            party,
            asset,
            amount,
        } = self;
        write!(f, "{day},{party},{asset},{amount}")
    }
}

impl Display for Verdict {
    fn fmt(&self, f: &mut fmt::Formatter<'_>) -> fmt::Result {
        match self {
            Verdict::Accepted {
                name,
                start,
                scale,
                total,
                horizon,
            } => {
                let start = start.map_or_else(|| "always".to_owned(), |it| it.to_string());
                write!(
                    f,
                    "{name} accepted start {start} scale {scale} total {total} horizon {horizon}"
                )
            }
            Verdict::Refused { name, rule, node } => write!(f, "{name} refused {rule} node {node}"),
        }
    }
}

impl Display for Advanced {
    /// The whole text: what was due as comments, and the portfolio.
    fn fmt(&self, f: &mut fmt::Formatter<'_>) -> fmt::Result {
        for flow in &self.due {
            writeln!(f, "# {flow}")?;
        }
        f.write_str(&self.portfolio)
    }
}

impl Display for Named {
    fn fmt(&self, f: &mut fmt::Formatter<'_>) -> fmt::Result {
        write!(f, "{},{}", self.name, self.value)
    }
}

impl Display for Scenarios {
    /// The whole text.
    fn fmt(&self, f: &mut fmt::Formatter<'_>) -> fmt::Result {
        for named in &self.values {
            writeln!(f, "{named}")?;
        }
        let Scenarios {
            total,
            mean,
            least,
            greatest,
            ..
        } = self;
        write!(
            f,
            "total,{total}\nmean,{mean}\nleast,{least}\ngreatest,{greatest}\n"
        )
    }
}

/// The text of rows: each as a line.
pub fn text_of<R: Display>(rows: &[R]) -> String {
    rows.iter().fold(String::new(), |mut text, row| {
        // A String takes whatever is written to it.
        let _ = writeln!(text, "{row}");
        text
    })
}

fn flow(line: &str) -> Option<Flow> {
    let [name, day, payer, receiver, asset, amount] = parts(line, ',')?;
    Some(Flow {
        name: name.to_owned(),
        day: day.parse().ok()?,
        payer: payer.to_owned(),
        receiver: receiver.to_owned(),
        asset: asset.to_owned(),
        amount: amount.parse().ok()?,
    })
}

fn position(line: &str) -> Option<Position> {
    let [day, party, asset, amount] = parts(line, ',')?;
    Some(Position {
        day: day.parse().ok()?,
        party: party.to_owned(),
        asset: asset.to_owned(),
        amount: amount.parse().ok()?,
    })
}

fn verdict(line: &str) -> Option<Verdict> {
    if let Some([name, "refused", rule, "node", node]) = parts(line, ' ') {
        return Some(Verdict::Refused {
            name: name.to_owned(),
            rule: rule.to_owned(),
            node: node.parse().ok()?,
        });
    }
    let [name, "accepted", "start", start, "scale", scale, "total", total, "horizon", horizon] =
        parts(line, ' ')?
    else {
        return None;
    };
    Some(Verdict::Accepted {
        name: name.to_owned(),
        start: if start == "always" {
            None
        } else {
            Some(start.parse().ok()?)
        },
        scale: scale.parse().ok()?,
        total: total.parse().ok()?,
        horizon: horizon.parse().ok()?,
    })
}

fn named(line: &str) -> Option<Named> {
    let [name, value] = parts(line, ',')?;
    Some(Named {
        name: name.to_owned(),
        value: value.parse().ok()?,
    })
}

fn scenarios(text: &str) -> Option<Scenarios> {
    let lines: Vec<&str> = text.lines().collect();
    let (values, [total, mean, least, greatest]) = last_four(&lines)?;
    Some(Scenarios {
        values: values
            .iter()
            .map(|line| named(line))
            .collect::<Option<_>>()?,
        total: total.strip_prefix("total,")?.parse().ok()?,
        mean: mean.strip_prefix("mean,")?.parse().ok()?,
        least: named(least.strip_prefix("least,")?)?,
        greatest: named(greatest.strip_prefix("greatest,")?)?,
    })
}

fn last_four<'a, 'b>(lines: &'b [&'a str]) -> Option<(&'b [&'a str], [&'a str; 4])> {
    let (values, last) = lines.split_at(lines.len().checked_sub(4)?);
    Some((values, last.try_into().ok()?))
}

fn advanced(text: &str) -> Option<Advanced> {
    let mut rest = text;
    let mut due = Vec::new();
    while let Some(line) = rest.strip_prefix("# ") {
        let (line, behind) = line.split_once('\n')?;
        due.push(flow(line)?);
        rest = behind;
    }
    Some(Advanced {
        due,
        portfolio: rest.to_owned(),
    })
}

fn parts<const N: usize>(line: &str, mark: char) -> Option<[&str; N]> {
    line.split(mark).collect::<Vec<_>>().try_into().ok()
}

impl Answer {
    /// The payments: of `flows` and of `settle`.
    pub fn flows(&self) -> Result<Vec<Flow>, Fault> {
        self.rows(flow)
    }

    /// The positions: of `positions`.
    pub fn positions(&self) -> Result<Vec<Position>, Fault> {
        self.rows(position)
    }

    /// The verdicts: of `check`. A refused contract is no fault here.
    pub fn verdicts(&self) -> Result<Vec<Verdict>, Fault> {
        match self.status {
            0 | 1 => self.read(|text| text.lines().map(verdict).collect()),
            _ => self.rows(verdict),
        }
    }

    /// What is due, and the portfolio that is left: of `advance` and of `novate`.
    pub fn advanced(&self) -> Result<Advanced, Fault> {
        self.done()?;
        self.read(advanced)
    }

    /// The value: of `value`.
    pub fn value(&self) -> Result<Decimal, Fault> {
        self.done()?;
        self.read(|text| text.strip_suffix('\n')?.parse().ok())
    }

    /// The values, their sum, their mean, the least and the greatest: of `scenarios`.
    pub fn scenarios(&self) -> Result<Scenarios, Fault> {
        self.done()?;
        self.read(scenarios)
    }

    fn rows<R>(&self, row: impl Fn(&str) -> Option<R>) -> Result<Vec<R>, Fault> {
        self.done()?;
        self.read(|text| text.lines().map(row).collect())
    }

    fn read<T>(&self, read: impl FnOnce(&str) -> Option<T>) -> Result<T, Fault> {
        let text = String::from_utf8_lossy(&self.text);
        read(&text).ok_or_else(|| Fault::OtherForm {
            status: self.status,
            text: text.into_owned(),
        })
    }
}
