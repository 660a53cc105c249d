//! What a call answers: its code in words, and what a refusal is about.

use core::fmt;

use crate::Answer;

/// Why a call was refused, or that it was not. The number of each is the one that [`Answer`] has.
#[derive(Clone, Copy, Debug, PartialEq, Eq, Hash, PartialOrd, Ord)]
#[non_exhaustive]
#[repr(u64)]
pub enum Code {
    /// Nothing was refused. The place is 0.
    Done = 0,
    /// N is 0, or over [`MOST_PORTS`](crate::MOST_PORTS) or, in the second edition, over 128. The place is 0.
    Ports = 1,
    /// Some other number of cells than N * N was lent. The place is N * N.
    Cells = 2,
    /// A line has more than [`MOST_LINE`](crate::MOST_LINE) slots. The place is the first such input, or
    /// else the first such output, and [`Answer::line`] says which of the two. Where a T is given and no
    /// demand it is more than that; the place is 0.
    Line = 3,
    /// Of the quick cover alone: T is more than [`MOST_QUICK`](crate::MOST_QUICK). The place is 0.
    Longest = 4,
    /// There is less room than the result takes. The place is how many records it has.
    Room = 5,
    /// The wish is no finite number. The place is its record.
    NotFinite = 6,
    /// The wish is less than 0. The place is its record.
    BelowZero = 7,
    /// The wish is more than 65,535. The place is its record.
    AboveMost = 8,
    /// Bytes are left over after the last whole record. The place is how many whole records there are.
    Torn = 9,
    /// A plan that is read has more than [`MOST_RECORDS`](crate::MOST_RECORDS) records, or in the second
    /// edition more than 32,768. The place is that limit.
    Records = 10,
    /// A record is not well formed, or a wish has a port that is not below N or a third or fourth byte
    /// other than 0. The place is its number.
    Malformed = 11,
    /// The wish names a pair that a record before it named. The place is its record.
    Named = 12,
    /// The plan does not cover the demand. The place is the first cell that is granted too little.
    Uncovered = 13,
    /// Tonight's plan is over, and the standby plan has no records. The place is 0.
    NotInForce = 14,
    /// More first records are asked for than the plan has. The place is how many it has.
    FirstOver = 15,
    /// At most 0 inputs may share a wavelength. The place is 0.
    Limit = 17,
    /// There is less room than the list takes. The place is how many entries it has.
    ListRoom = 16,
    /// A number that is none of the others: no call of this version answers one.
    Unknown = u64::MAX,
}

impl Code {
    /// All codes that a call answers, by number.
    pub const ALL: &'static [Code] = &[
        Code::Done,
        Code::Ports,
        Code::Cells,
        Code::Line,
        Code::Longest,
        Code::Room,
        Code::NotFinite,
        Code::BelowZero,
        Code::AboveMost,
        Code::Torn,
        Code::Records,
        Code::Malformed,
        Code::Named,
        Code::Uncovered,
        Code::NotInForce,
        Code::FirstOver,
        Code::ListRoom,
        Code::Limit,
    ];

    /// The code with this number.
    pub fn of(number: u64) -> Code {
        Code::ALL.iter().copied().find(|&code| code as u64 == number).unwrap_or(Code::Unknown)
    }

    /// What the code means, in one sentence.
    pub const fn words(self) -> &'static str {
        match self {
            Code::Done => "Nothing was refused.",
            Code::Ports => "The number of ports is 0 or over the largest.",
            Code::Cells => "The cells lent are not as many as the ports squared.",
            Code::Line => "A line sums to more than 65,535 slots.",
            Code::Longest => "A line sums to more than 1,024 slots, the most of the quick cover.",
            Code::Room => "The result has more records than there is room for.",
            Code::NotFinite => "A wish is not a finite number.",
            Code::BelowZero => "A wish is below zero.",
            Code::AboveMost => "A wish is above 65,535.",
            Code::Torn => "Bytes are left over after the last whole record.",
            Code::Records => "The plan has more records than are read.",
            Code::Malformed => "A record is not well formed.",
            Code::Named => "A wish names a pair that was named before.",
            Code::Uncovered => "The plan does not cover the demand.",
            Code::NotInForce => "Tonight's plan is over, and the standby plan has no records.",
            Code::FirstOver => "There are more first records than the plan has.",
            Code::Limit => "At most 0 inputs may share a wavelength.",
            Code::ListRoom => "The list has more entries than there is room for.",
            Code::Unknown => "There is no such code.",
        }
    }
}

impl fmt::Display for Code {
    fn fmt(&self, f: &mut fmt::Formatter<'_>) -> fmt::Result {
        f.write_str(self.words())
    }
}

/// The line that [`Code::Line`] is about.
#[derive(Clone, Copy, Debug, PartialEq, Eq, Hash)]
pub enum Line {
    /// All cells of this input.
    Input(u64),
    /// All cells of this output.
    Output(u64),
}

/// Which of several plans or demands a refusal is about, where a call takes more than one.
#[derive(Clone, Copy, Debug, PartialEq, Eq, Hash)]
#[repr(u64)]
pub enum About {
    /// Tonight's plan.
    Tonight = 1,
    /// The standby plan.
    Standby = 2,
    /// The plan of the batch that was stopped.
    Plan = 3,
    /// The demand of the batch that was stopped.
    Demand = 4,
    /// The new wishes.
    Wished = 5,
    /// The new demand: what is left over, with the new wishes added.
    Sum = 6,
}

impl About {
    /// What this is called in a sentence.
    pub const fn words(self) -> &'static str {
        match self {
            About::Tonight => "tonight's plan",
            About::Standby => "the standby plan",
            About::Plan => "the plan",
            About::Demand => "the demand",
            About::Wished => "the new wishes",
            About::Sum => "the new demand",
        }
    }
}

impl Answer {
    /// The answer if nothing was refused, or else the refusal.
    pub fn done(self) -> Result<Answer, Refused> {
        match self.code {
            0 => Ok(self),
            _ => Err(Refused(self)),
        }
    }

    /// The code, by name.
    pub fn code(&self) -> Code {
        Code::of(self.code)
    }

    /// The line that is too long, with [`Code::Line`] of a demand.
    pub fn line(&self) -> Option<Line> {
        match self.side {
            1 => Some(Line::Input(self.place)),
            2 => Some(Line::Output(self.place)),
            _ => None,
        }
    }

    /// Which plan or demand the code is about, where the call takes several.
    pub fn about(&self) -> Option<About> {
        [About::Tonight, About::Standby, About::Plan, About::Demand, About::Wished, About::Sum]
            .into_iter()
            .find(|&about| about as u64 == self.about)
    }
}

/// An answer with a code other than 0. As text it is a sentence that names the place.
#[derive(Clone, Copy, Debug, PartialEq, Eq)]
pub struct Refused(pub Answer);

impl Refused {
    /// The code, by name.
    pub fn code(&self) -> Code {
        self.0.code()
    }

    /// Where: what it counts is said at each [`Code`].
    pub fn place(&self) -> u64 {
        self.0.place
    }
}

impl fmt::Display for Refused {
    fn fmt(&self, f: &mut fmt::Formatter<'_>) -> fmt::Result {
        let Answer { code, place, .. } = self.0;
        write!(f, "refused, code {code}: ")?;
        if let Some(about) = self.0.about() {
            write!(f, "in {}, ", about.words())?;
        }
        match self.code() {
            Code::Ports => write!(f, "the number of ports is 0 or over the largest"),
            Code::Cells => write!(f, "the cells lent are not {place}"),
            Code::Line => match self.0.line() {
                Some(Line::Input(input)) => write!(f, "the line of input {input} sums over 65,535"),
                Some(Line::Output(output)) => write!(f, "the line of output {output} sums over 65,535"),
                None => write!(f, "a line sums over 65,535"),
            },
            Code::Longest => write!(f, "a line sums over 1,024"),
            Code::Room => write!(f, "the result takes {place} records, and the buffer has room for fewer"),
            Code::NotFinite => write!(f, "wish {place} is not a finite number"),
            Code::BelowZero => write!(f, "wish {place} is below zero"),
            Code::AboveMost => write!(f, "wish {place} is above 65,535"),
            Code::Torn => write!(f, "bytes are left over after {place} whole records"),
            Code::Records => write!(f, "the plan has over {place} records"),
            Code::Malformed => write!(f, "record {place} is not well formed"),
            Code::Named => write!(f, "wish {place} names a pair that was named before"),
            Code::Uncovered => write!(f, "cell {place} is not covered"),
            Code::NotInForce => write!(f, "tonight's plan is over, and there is no standby plan"),
            Code::FirstOver => write!(f, "the plan has only {place} records"),
            Code::Limit => write!(f, "at most 0 inputs may share a wavelength"),
            Code::ListRoom => write!(f, "the list takes {place} entries, and the buffer has room for fewer"),
            Code::Done | Code::Unknown => write!(f, "place {place}"),
        }
    }
}

#[cfg(feature = "std")]
impl std::error::Error for Refused {}
