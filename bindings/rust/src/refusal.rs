//! Why a call is refused.
use std::fmt;

/// Why a call is refused (document 01, "Turned back at the gate", and document 02's new numbers), with the papers'
/// numbers.
#[derive(Clone, Copy, Debug, PartialEq, Eq, PartialOrd, Ord, Hash)]
#[non_exhaustive]
pub enum Cause {
    /// The image is over 16,384 bytes.
    ImageTooLong,
    /// 1 to 3 bytes are left, or a record's length is under 4 or past the end.
    BrokenRecord,
    /// A record has an unknown kind.
    UnknownKind,
    /// A record is too short for its kind, or a pointcut term, an object, an object type or a match of wrong length.
    /// Any other record may be longer.
    WrongLength,
    /// A record stands after a later section's.
    SectionOrder,
    /// One record too many stands in its section.
    TooManyRecords,
    /// A type, child, domain, op or truth field is out of range.
    FieldRange,
    /// A type is equal to an earlier one.
    RepeatedType,
    /// A section has no records.
    EmptySection,
    /// A mask names an absent domain, or the masks are no partial order.
    DomainOrder,
    /// A term other than the root is not used exactly once.
    UseCount,
    /// A term is deeper than 64.
    TooDeep,
    /// A variable is unbound.
    UnboundVariable,
    /// A term is against a type rule, also a call of a method that the object's type lacks, an object with more or
    /// fewer bodies than its type has methods, and a match whose entry is no pointcut.
    TypeRule,
    /// A term is against a domain rule.
    DomainRule,
    /// The root's type is not plain.
    RootNotPlain,
    /// The work area is shorter than its published length.
    ShortWorkArea,
    /// The report is shorter than 17,994 bytes.
    ShortReport,
    /// The image is outside the class of images whose needs can be told without a run (document 02, card 10).
    OutsideClass,
    /// The output is shorter than the image whose fixed form is to be written (document 02, card 11).
    ShortOutput,
    /// The depth of a load is 0 or over 9 (document 02, card 12).
    WrongDepth,
    /// The output for a load is under 16,384 bytes (document 02, card 12).
    ShortLoad,
    /// The given set of high domains lacks domain 0, names an absent domain, or lacks a domain above a member
    /// (document 02, card 13).
    WrongSet,
    /// The output is shorter than the image that is to be written without its watches (document 02, card 13).
    ShortStrippedOutput,
    /// There are fewer places than numbers of a forecast. `needs` lends enough, so it never answers this.
    TooFewPlaces,
    /// A number that this crate has no name for: the library is newer than the crate.
    Unknown(u16),
}

/// Each cause that has a name: its number, and why in words.
const NAMED: [(u16, Cause, &str); 25] = [
    (1, Cause::ImageTooLong, "the image has more than 16,384 bytes"),
    (2, Cause::BrokenRecord, "1 to 3 bytes are left over, or a record's length is under 4 or past the image's end"),
    (3, Cause::UnknownKind, "a record has an unknown kind"),
    (4, Cause::WrongLength, "a record is too short, or a pointcut, object, object type or match has a wrong length"),
    (5, Cause::SectionOrder, "a domain stands after a type or a term, or a type after a term"),
    (6, Cause::TooManyRecords, "there are more domains, types or terms than an image may have"),
    (7, Cause::FieldRange, "a field names a type, term, domain, operation or truth that does not exist"),
    (8, Cause::RepeatedType, "a type equals an earlier one"),
    (9, Cause::EmptySection, "there is no domain, no type or no term"),
    (10, Cause::DomainOrder, "the domains' masks are no partial order, or name a domain that is absent"),
    (11, Cause::UseCount, "a term other than the root is not used exactly once"),
    (12, Cause::TooDeep, "terms are nested deeper than 64"),
    (13, Cause::UnboundVariable, "a variable is unbound"),
    (14, Cause::TypeRule, "a term's parts do not have the types that it needs"),
    (15, Cause::DomainRule, "a term does what the order of the domains forbids"),
    (16, Cause::RootNotPlain, "the program's result is not plain"),
    (17, Cause::ShortWorkArea, "the work area is shorter than its published length"),
    (18, Cause::ShortReport, "the report is shorter than 17,994 bytes"),
    (
        19,
        Cause::OutsideClass,
        "what runs will need cannot be told: the image has an apply, a call, an install over something else than an \
         advice, or a mark or an install in the body of an advice",
    ),
    (20, Cause::ShortOutput, "the output is shorter than the image whose fixed form is to be written"),
    (21, Cause::WrongDepth, "the depth of a load is 0 or over 9"),
    (22, Cause::ShortLoad, "the output for a load is shorter than 16,384 bytes"),
    (23, Cause::WrongSet, "domain 0 or a domain above a kept one is not kept, or a kept one is not in the image"),
    (24, Cause::ShortStrippedOutput, "the output is shorter than the image that is to be stripped"),
    (25, Cause::TooFewPlaces, "there are fewer places than numbers of a forecast"),
];

impl Cause {
    /// Every cause with a name, in the order of the numbers.
    pub fn all() -> impl Iterator<Item = Cause> {
        NAMED.into_iter().map(|(_, cause, _)| cause)
    }

    /// The cause of this number, if it has a name.
    #[must_use]
    pub fn from_number(number: u16) -> Option<Cause> {
        NAMED.into_iter().find(|(known, ..)| *known == number).map(|(_, cause, _)| cause)
    }

    /// Document 01's number, or document 02's.
    #[must_use]
    pub fn number(self) -> u16 {
        match self {
            Cause::Unknown(number) => number,
            named => NAMED.into_iter().find(|(_, cause, _)| *cause == named).map_or(0, |(number, ..)| number),
        }
    }
}

impl From<u16> for Cause {
    fn from(number: u16) -> Cause {
        Cause::from_number(number).unwrap_or(Cause::Unknown(number))
    }
}

/// In words.
impl fmt::Display for Cause {
    fn fmt(&self, f: &mut fmt::Formatter<'_>) -> fmt::Result {
        match NAMED.into_iter().find(|(_, cause, _)| cause == self) {
            Some((.., words)) => f.write_str(words),
            None => write!(f, "refusal {}, which this version does not know", self.number()),
        }
    }
}

/// A refused call: all lent memory is as it was.
#[must_use]
#[derive(Clone, Copy, Debug, PartialEq, Eq)]
pub struct Refusal {
    /// Why.
    pub cause: Cause,
    /// Where: an offset in the image, 0, or the image's length, as the table of document 01 says for the cause.
    pub place: usize,
}

impl Refusal {
    /// The refusal in an answer of the library: 2^16 times its number and 2^24 times its place.
    pub(crate) fn of(answer: u64) -> Refusal {
        Refusal { cause: Cause::from((answer >> 16 & 0xFF) as u16), place: (answer >> 24) as usize }
    }

    /// The line that the bench sheet's listing has for it: `refused N PLACE`.
    #[must_use]
    pub fn listing(&self) -> String {
        format!("refused {} {}", self.cause.number(), self.place)
    }
}

/// The line of the listing, then why in words.
impl fmt::Display for Refusal {
    fn fmt(&self, f: &mut fmt::Formatter<'_>) -> fmt::Result {
        write!(f, "{}: {}", self.listing(), self.cause)
    }
}

impl std::error::Error for Refusal {}

/// The low 16 bits of an answer, which are bytes that a call wrote, never 0; or its refusal, of which they are 0.
pub(crate) fn written(answer: u64) -> Result<usize, Refusal> {
    match (answer & 0xFFFF) as usize {
        0 => Err(Refusal::of(answer)),
        length => Ok(length),
    }
}
