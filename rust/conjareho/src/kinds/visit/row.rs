//! Rows: what the tables say of an attribute, a field or a form.

/// A line of the tables in `kinds/`: what an attribute, a field, or a line of a choice is called, and how it is shown.
#[derive(Clone, Copy, PartialEq, Eq, Hash, Debug)]
#[non_exhaustive]
pub struct Row {
    /// Its name in JSON, such as `Limit` of `TCA_FQ_CODEL_LIMIT`, or the name of a field.
    pub name: &'static str,
    /// The kernel's name of an attribute, such as `TCA_FQ_CODEL_LIMIT`. Empty for others.
    pub kernel: &'static str,
    /// Its name for people, in outlines.
    pub label: &'static str,
    /// Of a list: the name of the object that JSON has around each of its attributes. Mostly empty.
    pub layer: &'static str,
    /// The unit of its number, or the numbers of its array.
    pub unit: Unit,
    /// The names of its numbers.
    pub names: Names,
    /// `tc`'s word for it, as [`style`](Self::style) uses it. Empty if there is none.
    pub word: &'static str,
    /// How a line writes it.
    pub style: Style,
    /// The name of what belongs to it, as [`style`](Self::style) says: of its mask, its end, its rate. Mostly empty.
    pub with: &'static str,
    /// When a line leaves it out.
    pub left_out: LeftOut,
    /// When a line with statistics leaves it out.
    pub left_out_with_statistics: LeftOut,
}

impl Row {
    /// A row with only a name.
    pub(crate) const fn named(name: &'static str) -> Row {
        Row {
            name,
            kernel: "",
            label: name,
            layer: "",
            unit: Unit::None,
            names: Names::None,
            word: "",
            style: Style::Value,
            with: "",
            left_out: LeftOut::Never,
            left_out_with_statistics: LeftOut::Never,
        }
    }

    /// Where a line has it.
    #[must_use]
    pub const fn section(&self) -> Section {
        match self.style {
            Style::Head => Section::Head,
            Style::Hardware => Section::Hardware,
            Style::Statistics | Style::Count => Section::Statistics,
            Style::Actions => Section::Actions,
            Style::Control => Section::Control,
            _ => Section::Words,
        }
    }
}

/// The row of a whole message.
pub static MESSAGE: Row = Row::named("message");
/// The row of the contents of an element, whose number is [`Group::Element`](super::Group::Element)'s.
pub static CONTENTS: Row = Row::named("attributes");
/// The row of an attribute, or of bytes, that the tables don't have.
pub static OTHER: Row = Row::named("Other");

/// The names of protocols of link layers, `ETH_P_*`, which headers of filters have.
pub static PROTOCOLS: Names = Names::Numbers(&crate::kinds::shared::NAMES_ETH_P);

/// A part of a line.
#[derive(Clone, Copy, PartialEq, Eq, Hash, Debug)]
#[non_exhaustive]
pub enum Section {
    /// Before the kind's words: where the object is.
    Head,
    /// The kind's words.
    Words,
    /// After them: `skip_hw`, `in_hw`.
    Hardware,
    /// The actions of a filter.
    Actions,
    /// After the words of an action: its verdict, its index.
    Control,
    /// At the end, if asked for.
    Statistics,
}

/// When a line leaves a value out, since it says nothing new.
#[derive(Clone, Copy, PartialEq, Eq, Hash, Debug)]
#[non_exhaustive]
pub enum LeftOut {
    /// Never.
    Never,
    /// Always: another value says the same.
    Always,
    /// If it is this number: mostly the kernel's default. Of an address's mask the number is the length of its prefix.
    Equal(u64),
    /// If it is less than this number.
    Below(u64),
}

/// How a line writes a value.
#[derive(Clone, Copy, PartialEq, Eq, Hash, Debug)]
#[non_exhaustive]
pub enum Style {
    /// `word value`, or `Name=value` without a word. A list or a record is one word: `[..]` or `{..}`.
    Value,
    /// The value, without a word.
    Alone,
    /// The word of the number, among the words that `|` separates. Without one: `Name=value`.
    Choice,
    /// What is in a record or list is written as if it stood in its place.
    Flat,
    /// An address or a key, whose mask is the value right after it, of the row named [`with`](Row::with): `word value/mask`.
    Mask,
    /// The first of a range, whose last is the value right after it, of the row named [`with`](Row::with): `word 80-90`.
    Range,
    /// A `struct tc_ratespec`, whose fields are written as if they stood in its place. The attribute named [`with`](Row::with)
    /// replaces its rate if it is there.
    Rate,
    /// The number in a `struct tc_ratespec`: a rate with the word of the record.
    OfRate,
    /// The time that a burst takes at the rate whose word is [`with`](Row::with), written as the burst's size.
    Burst,
    /// Bytes in hex; more than 32 are counted: `<2048B>`.
    Bytes,
    /// The protocol, left out if the header of the message has the same.
    Protocol,
    /// A flag word: the names of its bits, after the kind's words.
    Hardware,
    /// A flag word: the names of its bits, in its place.
    Bits,
    /// After the words of its action.
    Control,
    /// In the head of the line.
    Head,
    /// Actions, which come last. With a word they are options of an action of this kind.
    Actions,
    /// The keys of u32: a list whose elements are written one after the other.
    Keys,
    /// The mask of a key of u32, with the value, named [`with`](Row::with), and the offset after it: `match 00000050/0000ffff at 20`.
    Key,
    /// The value of a key of u32, which its mask writes. The offset is named [`with`](Row::with).
    KeyValue,
    /// A statistic.
    Statistics,
    /// A number of packets, bytes or events that each line with statistics has.
    Count,
}

/// The unit of a number, or how it is written.
#[derive(Clone, Copy, PartialEq, Eq, Hash, Debug)]
#[non_exhaustive]
pub enum Unit {
    /// No unit.
    None,
    /// Hex.
    Hex,
    /// Hex with at least four digits, as of an EtherType.
    LongHex,
    /// Four bytes of a packet that were read as a little-endian number, in hex.
    NetworkHex,
    /// Bytes.
    Bytes,
    /// Packets.
    Packets,
    /// Bytes per second, which people read as bits per second.
    BytesPerSecond,
    /// Packets per second.
    PacketsPerSecond,
    /// 1000 bits per second.
    KilobitsPerSecond,
    /// Nanoseconds.
    Nanoseconds,
    /// Microseconds.
    Microseconds,
    /// Milliseconds.
    Milliseconds,
    /// Seconds.
    Seconds,
    /// Ticks of the packet scheduler: 64 ns.
    Ticks,
    /// Clock ticks: 1/100 s (`USER_HZ`).
    ClockTicks,
    /// Percent.
    Percent,
    /// A share in units of 2^-32.
    Probability,
    /// The exponent of a power of two.
    Power,
    /// The index of an interface.
    Interface,
    /// A handle of u32, such as `800::800`.
    U32Handle,
}

/// The names that numbers have.
#[derive(Clone, Copy, PartialEq, Eq, Hash, Debug)]
#[non_exhaustive]
pub enum Names {
    /// None.
    None,
    /// Names that replace the number in JSON.
    Enum(&'static [Name]),
    /// Names for people, of a number that stays one in JSON.
    Numbers(&'static [Name]),
    /// Names of bits.
    Flags(&'static [Name]),
}

impl Names {
    /// The name of a number. Of flags that of all these bits together, if the table has one.
    #[must_use]
    pub fn of(self, number: i64) -> Option<&'static Name> {
        let (Names::Enum(names) | Names::Numbers(names) | Names::Flags(names)) = self else { return None };
        names.iter().find(|it| it.number == number)
    }
}

/// The name of a number or a bit.
#[derive(Clone, Copy, PartialEq, Eq, Hash, Debug)]
#[non_exhaustive]
pub struct Name {
    /// The number, or the bit as a number.
    pub number: i64,
    /// Its name in JSON.
    pub name: &'static str,
    /// Its name for people.
    pub label: &'static str,
    /// The kernel's name.
    pub kernel: &'static str,
}
