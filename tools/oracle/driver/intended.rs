//! The two places where the port answers otherwise than the published crate, on purpose.

use crate::question::{Answer, Call, Question};
use crate::rules::{self, Sign};
use std::fmt;

#[derive(Clone, Copy, PartialEq, Eq)]
pub enum Difference {
    /// `parse_prefix` dropped a `+`: the crate leaves it out of the bytes read, the port counts it.
    Plus,
    /// 8 to 32 bits, prefix, without zero skipping, 17 digits or more of which the first 16 fit: the
    /// crate answers with the first 16 and says that it read 16; the port answers Size.
    Long,
}

impl fmt::Display for Difference {
    fn fmt(&self, f: &mut fmt::Formatter<'_>) -> fmt::Result {
        f.write_str(match self {
            Difference::Plus => "plus",
            Difference::Long => "long",
        })
    }
}

/// Why the rules may answer `ours` where the crate answers `theirs`; nothing if they may not.
pub fn difference(question: &Question, ours: Answer, theirs: Answer) -> Option<Difference> {
    match (ours, theirs) {
        (Answer::Ok(value, Some(count)), Answer::Ok(their_value, Some(their_count))) => {
            let plus = question.form.call == Call::ParsePrefix && rules::sign(question) == Sign::Plus;
            let counted = value == their_value && count == their_count + 1;
            (plus && counted).then_some(Difference::Plus)
        }
        (Answer::Size(17, _), Answer::Ok(their_value, Some(their_count))) => {
            let form = question.form;
            let sign = rules::sign(question);
            let narrow = form.number.bits < 64 && form.call.is_prefix() && !form.skips.zeroes;
            let cut = narrow && rules::run(question) >= 17 && {
                let first = &question.text[sign.len()..sign.len() + 16];
                let minus = (sign == Sign::Minus) as usize;
                their_value.abs() == rules::magnitude(first) && their_count == 16 + minus
            };
            cut.then_some(Difference::Long)
        }
        _ => None,
    }
}
