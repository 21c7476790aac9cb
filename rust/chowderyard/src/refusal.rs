use std::error::Error;
use std::fmt;

/// Why a call was refused. No lent buffer was altered.
///
/// The checks run in the order of the numbers: of two that apply, the smaller is given. [`Display`](fmt::Display) says
/// what was lent, what was needed and what to do about it.
#[derive(Clone, Copy, Debug, PartialEq, Eq, Hash)]
#[non_exhaustive]
pub enum Refusal {
    /// 1: the count of values is not a multiple of 4.
    NotFours {
        /// How many values were lent.
        values: usize,
    },
    /// 2: more than [`GROUP_LIMIT`](crate::GROUP_LIMIT) groups, by the values or by the tags.
    TooManyGroups {
        /// How many groups were asked for.
        groups: usize,
    },
    /// 3: encoding, with fewer tag bytes than groups.
    FewTags {
        /// How many tag bytes were lent.
        tags: usize,
        /// How many groups there are.
        groups: usize,
    },
    /// 4: encoding, with less room for data than the widest groups would take.
    LittleRoom {
        /// How many data bytes were lent.
        bytes: usize,
        /// How many must be.
        needed: usize,
    },
    /// 5: decoding, where the tags and the values are not of the same count of groups.
    OtherTags {
        /// How many tag bytes were lent.
        tags: usize,
        /// How many groups of values.
        groups: usize,
    },
    /// 6: the tags call for more data than there is.
    MissingData {
        /// How many data bytes were lent.
        bytes: usize,
        /// How many the tags call for.
        needed: usize,
    },
    /// 7: the last groups take more bytes than were copied for them.
    TailOverrun,
    /// A number that this package does not know: the library that was linked is of another version.
    Unknown {
        /// The number that the library gave.
        number: u8,
    },
}

impl Refusal {
    /// The number of the refusal, 1 to 7, as in the C header.
    pub fn number(&self) -> u8 {
        match *self {
            Refusal::NotFours { .. } => 1,
            Refusal::TooManyGroups { .. } => 2,
            Refusal::FewTags { .. } => 3,
            Refusal::LittleRoom { .. } => 4,
            Refusal::OtherTags { .. } => 5,
            Refusal::MissingData { .. } => 6,
            Refusal::TailOverrun => 7,
            Refusal::Unknown { number } => number,
        }
    }

    /// The name of the refusal, in a word or three.
    pub fn name(&self) -> &'static str {
        match self {
            Refusal::NotFours { .. } => "not fours",
            Refusal::TooManyGroups { .. } => "too many groups",
            Refusal::FewTags { .. } => "few tags",
            Refusal::LittleRoom { .. } => "little room",
            Refusal::OtherTags { .. } => "other tags",
            Refusal::MissingData { .. } => "missing data",
            Refusal::TailOverrun => "tail overrun",
            Refusal::Unknown { .. } => "unknown",
        }
    }

    /// What was lent, what was needed and what to do, without the number and the name.
    pub fn reason(&self) -> Reason<'_> {
        Reason(self)
    }
}

impl fmt::Display for Refusal {
    fn fmt(&self, f: &mut fmt::Formatter<'_>) -> fmt::Result {
        write!(
            f,
            "refused with {} ({}): {}",
            self.number(),
            self.name(),
            self.reason()
        )
    }
}

impl Error for Refusal {}

/// The text of a refusal, made by [`Refusal::reason`].
#[derive(Clone, Copy, Debug)]
pub struct Reason<'a>(&'a Refusal);

impl fmt::Display for Reason<'_> {
    fn fmt(&self, f: &mut fmt::Formatter<'_>) -> fmt::Result {
        match *self.0 {
            Refusal::NotFours { values } => write!(
                f,
                "{} not a multiple of 4; add {} or leave out {}, and keep the true count beside the column",
                counted(values, "value is", "values are"),
                4 - values % 4,
                values % 4
            ),
            Refusal::TooManyGroups { groups } => write!(
                f,
                "{groups} groups are more than {}; cut the column and pack the parts",
                crate::GROUP_LIMIT
            ),
            Refusal::FewTags { tags, groups } => write!(
                f,
                "{} for {}; lend a tag byte for each group",
                counted(tags, "tag byte", "tag bytes"),
                counted(groups, "group", "groups")
            ),
            Refusal::LittleRoom { bytes, needed } => write!(
                f,
                "room for {}, and {needed} must be lent even where fewer are written; ask max_compressed_bytes",
                counted(bytes, "data byte", "data bytes")
            ),
            Refusal::OtherTags { tags, groups } => write!(
                f,
                "{} for {} of values; the tags are of another column, or values were added or lost",
                counted(tags, "tag", "tags"),
                counted(groups, "group", "groups")
            ),
            Refusal::MissingData { bytes, needed } => write!(
                f,
                "the tags call for {} and {}, {} too few; the data was cut, or the tags are of another column or coder",
                counted(needed, "data byte", "data bytes"),
                counted(bytes, "is there", "are there"),
                needed.saturating_sub(bytes)
            ),
            Refusal::TailOverrun => write!(
                f,
                "the last groups take more bytes than were copied for them; report this with the tags and the data"
            ),
            Refusal::Unknown { number } => write!(
                f,
                "the library gave number {number}, which this package does not know; \
                 build both from the same version"
            ),
        }
    }
}

/// "1 tag", "2 tags".
fn counted(n: usize, one: &str, more: &str) -> String {
    format!("{n} {}", if n == 1 { one } else { more })
}
