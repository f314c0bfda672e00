//! The answer that the published crate gives.

use crate::question::{Answer, Call, Form, Part, Question};
use atoi_simd::{AtoiSimdError, Parse, ParseNeg};

pub fn answer(question: &Question) -> Answer {
    let text = &question.text;
    let form = question.form;
    match (form.number.signed, form.number.bits) {
        (false, 8) => unsigned::<u8>(form, text),
        (false, 16) => unsigned::<u16>(form, text),
        (false, 32) => unsigned::<u32>(form, text),
        (false, 64) => unsigned::<u64>(form, text),
        (true, 8) => signed::<i8>(form, text),
        (true, 16) => signed::<i16>(form, text),
        (true, 32) => signed::<i32>(form, text),
        (true, 64) => signed::<i64>(form, text),
        _ => panic!("no type {}", form.number),
    }
}

fn unsigned<T: Parse + Into<i128>>(form: Form, text: &[u8]) -> Answer {
    match (form.skips.zeroes, form.skips.plus) {
        (false, false) => ask::<T, false, false>(form.call, text),
        (false, true) => ask::<T, false, true>(form.call, text),
        (true, false) => ask::<T, true, false>(form.call, text),
        (true, true) => ask::<T, true, true>(form.call, text),
    }
}

fn signed<T: Parse + ParseNeg + Into<i128>>(form: Form, text: &[u8]) -> Answer {
    match (form.call, form.skips.zeroes) {
        (Call::ParseNeg, false) => checked(atoi_simd::parse_neg::<T, false>(text), text),
        (Call::ParseNeg, true) => checked(atoi_simd::parse_neg::<T, true>(text), text),
        (Call::ParsePrefixNeg, false) => prefix(atoi_simd::parse_prefix_neg::<T, false>(text), text),
        (Call::ParsePrefixNeg, true) => prefix(atoi_simd::parse_prefix_neg::<T, true>(text), text),
        _ => unsigned::<T>(form, text),
    }
}

fn ask<T, const ZEROES: bool, const PLUS: bool>(call: Call, text: &[u8]) -> Answer
where
    T: Parse + Into<i128>,
{
    match call {
        Call::Parse => checked(atoi_simd::parse::<T, ZEROES, PLUS>(text), text),
        Call::ParsePos => checked(atoi_simd::parse_pos::<T, ZEROES>(text), text),
        Call::ParsePrefix => prefix(atoi_simd::parse_prefix::<T, ZEROES, PLUS>(text), text),
        Call::ParsePrefixPos => prefix(atoi_simd::parse_prefix_pos::<T, ZEROES>(text), text),
        Call::ParseNeg | Call::ParsePrefixNeg => panic!("{call} of an unsigned type"),
    }
}

fn checked<T: Into<i128>>(result: Result<T, AtoiSimdError<'_>>, text: &[u8]) -> Answer {
    match result {
        Ok(value) => Answer::Ok(value.into(), None),
        Err(fault) => faulted(fault, text),
    }
}

fn prefix<T: Into<i128>>(result: Result<(T, usize), AtoiSimdError<'_>>, text: &[u8]) -> Answer {
    match result {
        Ok((value, count)) => Answer::Ok(value.into(), Some(count)),
        Err(fault) => faulted(fault, text),
    }
}

fn faulted(fault: AtoiSimdError<'_>, text: &[u8]) -> Answer {
    match fault {
        AtoiSimdError::Empty => Answer::Empty,
        AtoiSimdError::Size(count, part) => Answer::Size(count, place(part, text)),
        AtoiSimdError::Overflow(part) => Answer::Overflow(place(part, text)),
        AtoiSimdError::Invalid64(value, count, part) => Answer::Invalid64(value, count, place(part, text)),
        AtoiSimdError::Invalid128(..) => panic!("a fault of 128 bits: {fault:?}"),
    }
}

/// Where in the text the carried part lies, by its address.
fn place(part: &[u8], text: &[u8]) -> Part {
    let offset = part.as_ptr() as usize - text.as_ptr() as usize;
    assert!(offset + part.len() <= text.len(), "a part outside the text");
    Part { offset, len: part.len() }
}
