//! The ways in which a block is damaged, by name.

#[derive(Clone, Copy, Debug, PartialEq, Eq)]
pub enum Kind {
    /// As it was sealed.
    Whole,
    /// One bit is another.
    OneBit,
    /// Two bits are others.
    TwoBits,
    /// The count is another; as in all that follow up to `Length`, the check is made good.
    Count,
    /// One of the nine zeros is none.
    Nine,
    /// Bytes of an unused record are not zero.
    Unused,
    /// One byte of a used record has some value: each byte, each value, each sort of record.
    RecordByte,
    /// The same of an unused record.
    UnusedByte,
    /// Two bytes of a used record are others.
    TwoBytes,
    /// A transfer's lengths lie at their borders.
    Length,
    /// The end of the input, not so long as a block.
    Tail,
    /// Pieces of several blocks, so that what follows a cut is shifted.
    Joined,
}

impl Kind {
    pub const ALL: [Kind; 12] = [
        Kind::Whole,
        Kind::OneBit,
        Kind::TwoBits,
        Kind::Count,
        Kind::Nine,
        Kind::Unused,
        Kind::RecordByte,
        Kind::UnusedByte,
        Kind::TwoBytes,
        Kind::Length,
        Kind::Tail,
        Kind::Joined,
    ];

    pub fn name(self) -> &'static str {
        match self {
            Kind::Whole => "whole",
            Kind::OneBit => "one bit",
            Kind::TwoBits => "two bits",
            Kind::Count => "count",
            Kind::Nine => "nine zeros",
            Kind::Unused => "unused record",
            Kind::RecordByte => "record byte",
            Kind::UnusedByte => "unused record's byte",
            Kind::TwoBytes => "two record bytes",
            Kind::Length => "length border",
            Kind::Tail => "short tail",
            Kind::Joined => "joined pieces",
        }
    }
}
