//! The mistakes that can be planted, to see that the comparison finds them: `port.rs` and `faults.rs` make them.

/// The mistake that is planted.
#[derive(Debug, Clone, Copy, PartialEq, Eq)]
pub enum Plant {
    /// None: the port as it is.
    None,
    /// The place of a quoted word is the byte after its mark.
    Read,
    /// An age that equals a duration is too young.
    Decide,
    /// Write-only stores are checked one at a time.
    Check,
    /// A duration of zero prints as `0d`.
    Print,
    /// Reading clears one byte after an image of three nodes or more; a short buffer's first byte is cleared by printing.
    Buffer,
    /// A week is six days, where the rule is one duration.
    Week,
    /// A blank between digits and a unit is refused, where the rule is one duration.
    Blank,
    /// A blank inside `ms` is accepted at the end of a quoted word.
    Inside,
    /// A duration of seven days prints as `1w`.
    Weeks,
    /// A quoted `readable` is readable(1).
    Readable,
    /// The first quoted word before a bracket is read as if it had no marks.
    Call,
    /// A quoted count of a rule that is readable(k) is refused.
    Count,
    /// Where a text begins with `'` and ends with ` readable`, that last word is a name.
    Flag,
    /// Keep is answered as 2.
    Keep,
    /// A pass is answered as 5.
    Pass,
    /// A refusal's number is answered with 256 added to it.
    Number,
    /// The byte after a call's last input is read.
    After,
    /// The byte before a call's first input is read.
    Before,
    /// The first byte of a call's first input is written again.
    Written,
    /// The byte after a buffer is read and written again.
    BufferEnd,
    /// The byte before a buffer is read and written again.
    BufferStart,
    /// The last byte that is written is wrong where the address of a buffer, divided by 16, leaves 13.
    Aligned,
    /// A buffer that begins where the input ends is taken for one that overlaps it, and refused with 1.
    Adjacent,
    /// A byte of an input that has none is read.
    Empty,
    /// An input at null is refused with 16.
    Null,
    /// A buffer at null is refused with 16.
    NullBuffer,
    /// Where stores and list are one buffer, the decision is keep.
    Shared,
    /// Twins are looked for among the first 53 stores only; with others a rule passes or the decision is keep.
    Twins,
    /// A rule of more than 1,000 nodes passes where 21 is expected.
    Unconfirmed,
    /// A rule of more than 1,000 nodes passes where 22 is expected.
    Archive,
    /// The place of 20 is cut to a byte.
    Place,
}

impl Plant {
    /// Each mistake and the name by which it is asked for.
    pub const NAMES: [(&str, Self); 31] = [
        ("read", Plant::Read),
        ("decide", Plant::Decide),
        ("check", Plant::Check),
        ("print", Plant::Print),
        ("buffer", Plant::Buffer),
        ("week", Plant::Week),
        ("blank", Plant::Blank),
        ("inside", Plant::Inside),
        ("weeks", Plant::Weeks),
        ("readable", Plant::Readable),
        ("call", Plant::Call),
        ("count", Plant::Count),
        ("flag", Plant::Flag),
        ("keep", Plant::Keep),
        ("pass", Plant::Pass),
        ("number", Plant::Number),
        ("after", Plant::After),
        ("before", Plant::Before),
        ("written", Plant::Written),
        ("buffer_end", Plant::BufferEnd),
        ("buffer_start", Plant::BufferStart),
        ("aligned", Plant::Aligned),
        ("adjacent", Plant::Adjacent),
        ("empty", Plant::Empty),
        ("null", Plant::Null),
        ("null_buffer", Plant::NullBuffer),
        ("shared", Plant::Shared),
        ("twins", Plant::Twins),
        ("unconfirmed", Plant::Unconfirmed),
        ("archive", Plant::Archive),
        ("place", Plant::Place),
    ];

    /// The mistake of that name.
    pub fn named(name: &str) -> Option<Self> {
        Self::NAMES.iter().find(|known| known.0 == name).map(|known| known.1)
    }
}
