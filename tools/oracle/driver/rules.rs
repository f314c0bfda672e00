//! The answer that the rules give, read off them as plainly as possible and without looking at how
//! the crate computes it.
//!
//! After the sign let r be the number of leading digits, z the number of zeros among them before
//! the first other digit, and V the value of the r digits with its sign.

use crate::question::{Answer, Call, Number, Part, Question};

/// What stands in front of the digits.
#[derive(Clone, Copy, PartialEq, Eq)]
pub enum Sign {
    None,
    /// A `+` that is dropped.
    Plus,
    Minus,
}

impl Sign {
    pub fn len(self) -> usize {
        (self != Sign::None) as usize
    }
}

/// At most one sign is taken, and only by `parse` and `parse_prefix`: a `+` where the question asks
/// to skip it, a `-` where the type is signed.
pub fn sign(question: &Question) -> Sign {
    let form = question.form;
    match question.text.first() {
        Some(b'+') if form.call.takes_sign() && form.skips.plus => Sign::Plus,
        Some(b'-') if form.call.takes_sign() && form.number.signed => Sign::Minus,
        _ => Sign::None,
    }
}

/// r: how many digits follow the sign.
pub fn run(question: &Question) -> usize {
    let rest = &question.text[sign(question).len()..];
    rest.iter().take_while(|byte| byte.is_ascii_digit()).count()
}

/// The value of some digits, or the greatest i128 if there are too many.
pub fn magnitude(digits: &[u8]) -> i128 {
    digits.iter().fold(0i128, |value, digit| {
        value.saturating_mul(10).saturating_add((digit - b'0') as i128)
    })
}

pub fn answer(question: &Question) -> Answer {
    let call = question.form.call;
    let number = question.form.number;
    let skip_zeroes = question.form.skips.zeroes;
    let sign = sign(question);
    let r = run(question);
    if r == 0 {
        return Answer::Empty;
    }
    let reading = Reading {
        call,
        number,
        negative: call.is_neg() || sign == Sign::Minus,
        text: &question.text,
        start: sign.len(),
        r,
        z: question.text[sign.len()..].iter().take_while(|byte| **byte == b'0').count(),
    };
    let fault = match (number.bits, call.is_prefix()) {
        (64, _) => reading.fault_64(skip_zeroes),
        (_, true) if skip_zeroes => reading.fault_narrow_skipping(),
        (_, true) => reading.fault_narrow(),
        (_, false) => reading.fault_checked(),
    };
    fault.or_else(|| reading.fault_tail()).unwrap_or_else(|| reading.success())
}

struct Reading<'a> {
    call: Call,
    number: Number,
    negative: bool,
    text: &'a [u8],
    /// Where the digits begin.
    start: usize,
    r: usize,
    z: usize,
}

impl Reading<'_> {
    /// The signed value of the first `count` digits.
    fn value(&self, count: usize) -> i128 {
        let size = magnitude(&self.text[self.start..self.start + count]);
        if self.negative { -size } else { size }
    }

    fn fits(&self, value: i128) -> bool {
        self.number.least() <= value && value <= self.number.greatest()
    }

    /// The bytes after the sign and `skipped` more, to the end of the text.
    fn part(&self, skipped: usize) -> Part {
        let offset = self.start + skipped;
        Part { offset, len: self.text.len() - offset }
    }

    /// 64 bits. With L = 20 at u64 and 19 at i64: without zero skipping more than L digits are a
    /// Size of min(r, 24) and of all bytes after the sign; with it more than L digits after the
    /// zeros are a Size of z + min(r - z, 24), from the first nonzero digit on. Else a V that does
    /// not fit is an Overflow from the first nonzero digit on.
    fn fault_64(&self, skip_zeroes: bool) -> Option<Answer> {
        let longest = if self.number.signed { 19 } else { 20 };
        let skipped = if skip_zeroes { self.z } else { 0 };
        let left = self.r - skipped;
        if left > longest {
            return Some(Answer::Size(skipped + left.min(24), self.part(skipped)));
        }
        let overflow = !self.fits(self.value(self.r));
        overflow.then(|| Answer::Overflow(self.part(self.z)))
    }

    /// 8 to 32 bits, prefix, with zero skipping: V does not fit. With z = 16 q + t and t < 16 the
    /// part begins after 16 q zeros, and after t more if r - 16 q >= 16.
    fn fault_narrow_skipping(&self) -> Option<Answer> {
        let blocks = self.z / 16 * 16;
        let more = if self.r - blocks >= 16 { self.z % 16 } else { 0 };
        let overflow = !self.fits(self.value(self.r));
        overflow.then(|| Answer::Overflow(self.part(blocks + more)))
    }

    /// 8 to 32 bits, prefix, without zero skipping: Overflow if the value of the first 16 digits
    /// does not fit, else Size of 17 if there are more.
    fn fault_narrow(&self) -> Option<Answer> {
        if !self.fits(self.value(self.r.min(16))) {
            return Some(Answer::Overflow(self.part(0)));
        }
        (self.r > 16).then(|| Answer::Size(17, self.part(0)))
    }

    /// 8 to 32 bits, checked: zero skipping makes no difference, and V does not fit.
    fn fault_checked(&self) -> Option<Answer> {
        let overflow = !self.fits(self.value(self.r));
        overflow.then(|| Answer::Overflow(self.part(0)))
    }

    /// A checked call refuses bytes after the digits.
    fn fault_tail(&self) -> Option<Answer> {
        let tail = !self.call.is_prefix() && self.start + self.r < self.text.len();
        let size = self.value(self.r).unsigned_abs() as u64;
        tail.then(|| Answer::Invalid64(size, self.r, self.part(0)))
    }

    /// The value, and for a prefix call the bytes read, the sign and a dropped `+` among them.
    fn success(&self) -> Answer {
        let count = self.call.is_prefix().then_some(self.start + self.r);
        Answer::Ok(self.value(self.r), count)
    }
}
