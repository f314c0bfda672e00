//! A question, its answer, and how a line of the list writes them.

use std::fmt;

#[derive(Clone, Copy, PartialEq, Eq, Hash)]
pub enum Call {
    Parse,
    ParsePos,
    ParseNeg,
    ParsePrefix,
    ParsePrefixPos,
    ParsePrefixNeg,
}

impl Call {
    pub const ALL: [Call; 6] = [
        Call::Parse,
        Call::ParsePos,
        Call::ParseNeg,
        Call::ParsePrefix,
        Call::ParsePrefixPos,
        Call::ParsePrefixNeg,
    ];

    /// Does it look for a sign in the text?
    pub fn takes_sign(self) -> bool {
        matches!(self, Call::Parse | Call::ParsePrefix)
    }

    /// Is every text negative to it?
    pub fn is_neg(self) -> bool {
        matches!(self, Call::ParseNeg | Call::ParsePrefixNeg)
    }

    /// May bytes follow the digits?
    pub fn is_prefix(self) -> bool {
        matches!(self, Call::ParsePrefix | Call::ParsePrefixPos | Call::ParsePrefixNeg)
    }
}

impl fmt::Display for Call {
    fn fmt(&self, f: &mut fmt::Formatter<'_>) -> fmt::Result {
        f.write_str(match self {
            Call::Parse => "parse",
            Call::ParsePos => "parse_pos",
            Call::ParseNeg => "parse_neg",
            Call::ParsePrefix => "parse_prefix",
            Call::ParsePrefixPos => "parse_prefix_pos",
            Call::ParsePrefixNeg => "parse_prefix_neg",
        })
    }
}

#[derive(Clone, Copy, PartialEq, Eq, Hash)]
pub struct Number {
    pub bits: u32,
    pub signed: bool,
}

impl Number {
    pub const ALL: [Number; 8] = [
        Number { bits: 8, signed: false },
        Number { bits: 8, signed: true },
        Number { bits: 16, signed: false },
        Number { bits: 16, signed: true },
        Number { bits: 32, signed: false },
        Number { bits: 32, signed: true },
        Number { bits: 64, signed: false },
        Number { bits: 64, signed: true },
    ];

    pub fn greatest(self) -> i128 {
        (1 << (self.bits - self.signed as u32)) - 1
    }

    pub fn least(self) -> i128 {
        if self.signed { -self.greatest() - 1 } else { 0 }
    }

    /// How many digits its greatest value has.
    pub fn width(self) -> usize {
        self.greatest().to_string().len()
    }
}

impl fmt::Display for Number {
    fn fmt(&self, f: &mut fmt::Formatter<'_>) -> fmt::Result {
        write!(f, "{}{}", if self.signed { 'i' } else { 'u' }, self.bits)
    }
}

#[derive(Clone, Copy, PartialEq, Eq, Hash)]
pub struct Skips {
    pub zeroes: bool,
    pub plus: bool,
}

impl fmt::Display for Skips {
    fn fmt(&self, f: &mut fmt::Formatter<'_>) -> fmt::Result {
        let zeroes = if self.zeroes { 'z' } else { '-' };
        let plus = if self.plus { 'p' } else { '-' };
        write!(f, "{zeroes}{plus}")
    }
}

/// What is asked of a text.
#[derive(Clone, Copy, PartialEq, Eq, Hash)]
pub struct Form {
    pub call: Call,
    pub number: Number,
    pub skips: Skips,
}

impl Form {
    /// Every form that the crate has: only `parse` and `parse_prefix` can skip a plus, and only a
    /// signed type has the calls that read a negative number.
    pub fn all() -> Vec<Form> {
        let mut forms = Vec::new();
        for call in Call::ALL {
            for number in Number::ALL {
                for zeroes in [false, true] {
                    for plus in [false, true] {
                        let known = (!call.is_neg() || number.signed) && (!plus || call.takes_sign());
                        if known {
                            forms.push(Form { call, number, skips: Skips { zeroes, plus } });
                        }
                    }
                }
            }
        }
        forms
    }
}

#[derive(Clone, PartialEq, Eq, Hash)]
pub struct Question {
    pub form: Form,
    pub text: Vec<u8>,
}

impl fmt::Display for Question {
    fn fmt(&self, f: &mut fmt::Formatter<'_>) -> fmt::Result {
        write!(f, "{} {} {} ", self.form.call, self.form.number, self.form.skips)?;
        match plain(&self.text) {
            Some(text) => f.write_str(text),
            None => {
                f.write_str("hex:")?;
                self.text.iter().try_for_each(|byte| write!(f, "{byte:02x}"))
            }
        }
    }
}

/// The text as it stands, if a line can hold it so.
fn plain(text: &[u8]) -> Option<&str> {
    let visible = text.iter().all(|byte| (0x21..=0x7e).contains(byte));
    if text.is_empty() || !visible || text.starts_with(b"hex:") {
        return None;
    }
    std::str::from_utf8(text).ok()
}

/// The part of the text that a fault carries.
#[derive(Clone, Copy, PartialEq, Eq, Debug)]
pub struct Part {
    pub offset: usize,
    pub len: usize,
}

impl fmt::Display for Part {
    fn fmt(&self, f: &mut fmt::Formatter<'_>) -> fmt::Result {
        write!(f, "@{}+{}", self.offset, self.len)
    }
}

#[derive(Clone, Copy, PartialEq, Eq, Debug)]
pub enum Answer {
    /// The value, and for a prefix call how many bytes were read.
    Ok(i128, Option<usize>),
    Empty,
    Size(usize, Part),
    Overflow(Part),
    Invalid64(u64, usize, Part),
}

impl fmt::Display for Answer {
    fn fmt(&self, f: &mut fmt::Formatter<'_>) -> fmt::Result {
        match self {
            Answer::Ok(value, None) => write!(f, "Ok {value}"),
            Answer::Ok(value, Some(count)) => write!(f, "Ok {value} {count}"),
            Answer::Empty => f.write_str("Empty"),
            Answer::Size(count, part) => write!(f, "Size {count} {part}"),
            Answer::Overflow(part) => write!(f, "Overflow {part}"),
            Answer::Invalid64(value, count, part) => write!(f, "Invalid64 {value} {count} {part}"),
        }
    }
}
