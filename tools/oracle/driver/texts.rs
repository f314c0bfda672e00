//! The questions of the list: short texts one and all, texts about the limits of each type, and
//! random ones. Nothing here depends on the machine or the time, so a second run asks the same.

use crate::question::{Call, Form, Number, Question, Skips};

/// Runs of zeros that stand in front of other digits: about the blocks of 8 and 16 bytes.
const ZEROS: [usize; 16] = [0, 1, 2, 7, 8, 9, 15, 16, 17, 23, 24, 31, 32, 33, 47, 48];

/// How many digits a random text has: about the lengths at which an answer changes.
const LENGTHS: [usize; 24] =
    [1, 2, 3, 4, 5, 7, 8, 9, 10, 15, 16, 17, 18, 19, 20, 21, 22, 23, 24, 25, 31, 32, 48, 64];

/// What may follow the digits: the neighbours of `0` and `9`, the ends of a byte's range, signs,
/// and digits again after a byte that is none.
const TAILS: [&[u8]; 14] = [
    b"", b";", b"/", b":", b"\x00", b"\xff", b"-", b"+", b" ", b".5", b"/1234567890123456", b":00000000",
    b"\x00\x009", b"\xff12345678",
];

/// Splitmix64, started at a fixed value: the same numbers at each run.
pub struct Random(u64);

impl Random {
    pub fn seeded() -> Random {
        Random(0x61746f695f73696d)
    }

    fn next(&mut self) -> u64 {
        self.0 = self.0.wrapping_add(0x9e37_79b9_7f4a_7c15);
        let mut word = self.0;
        word = (word ^ (word >> 30)).wrapping_mul(0xbf58_476d_1ce4_e5b9);
        word = (word ^ (word >> 27)).wrapping_mul(0x94d0_49bb_1331_11eb);
        word ^ (word >> 31)
    }

    fn below(&mut self, bound: usize) -> usize {
        (self.next() % bound as u64) as usize
    }

    pub fn pick<T: Copy>(&mut self, items: &[T]) -> T {
        items[self.below(items.len())]
    }

    fn digits(&mut self, count: usize) -> Vec<u8> {
        (0..count).map(|_| b'0' + self.below(10) as u8).collect()
    }
}

/// Every text of at most `longest` bytes of the alphabet, the shorter ones first.
fn every_text(alphabet: &[u8], longest: usize) -> Vec<Vec<u8>> {
    let mut texts = vec![Vec::new()];
    let mut from = 0;
    for _ in 0..longest {
        let to = texts.len();
        for at in from..to {
            for &byte in alphabet {
                let mut text = texts[at].clone();
                text.push(byte);
                texts.push(text);
            }
        }
        from = to;
    }
    texts
}

/// Texts of at most one byte for every form, and of at most three bytes for some: with signs where
/// the call looks for one.
pub fn short() -> Vec<Question> {
    let form = |call, bits, signed, zeroes, plus| Form {
        call,
        number: Number { bits, signed },
        skips: Skips { zeroes, plus },
    };
    let with_signs = [
        form(Call::Parse, 8, true, false, true),
        form(Call::Parse, 64, false, true, false),
        form(Call::ParsePrefix, 32, true, true, false),
        form(Call::ParsePrefix, 64, true, false, true),
    ];
    let without = [
        form(Call::ParsePos, 16, false, true, false),
        form(Call::ParseNeg, 64, true, false, false),
        form(Call::ParsePrefixPos, 8, false, false, false),
        form(Call::ParsePrefixNeg, 16, true, true, false),
    ];
    let mut questions = Vec::new();
    let mut add = |forms: &[Form], texts: Vec<Vec<u8>>| {
        for &form in forms {
            questions.extend(texts.iter().map(|text| Question { form, text: text.clone() }));
        }
    };
    add(&Form::all(), every_text(b"019+-;", 1));
    add(&with_signs, every_text(b"019+-;", 3));
    add(&without, every_text(b"019;", 3));
    questions
}

/// For every form the values next to each limit of the type, plain and with zeros in front.
pub fn limits() -> Vec<Question> {
    let mut questions = Vec::new();
    let mut turn = 0;
    for form in Form::all() {
        for (sign, size) in sizes(form) {
            for padded in [false, true] {
                let zeros = if padded { ZEROS[1 + turn % (ZEROS.len() - 1)] } else { 0 };
                let tail = if turn % 3 == 0 { TAILS[turn / 3 % TAILS.len()] } else { b"" };
                let digits = size.to_string();
                let text = [sign, &vec![b'0'; zeros], digits.as_bytes(), tail].concat();
                questions.push(Question { form, text });
                turn += 1;
            }
        }
    }
    questions
}

/// The sign and size of each value next to a limit, with a sign only where the call looks for one.
fn sizes(form: Form) -> Vec<(&'static [u8], i128)> {
    let most = form.number.greatest();
    let least = -form.number.least();
    let up: &[u8] = if form.skips.plus { b"+" } else { b"" };
    let down: &[u8] = if form.call.takes_sign() { b"-" } else { b"" };
    let top = [most - 1, most, most + 1, 10 * most + 9].map(|size| (up, size));
    let bottom = [least - 1, least, least + 1].map(|size| (down, size));
    match (form.call, form.number.signed) {
        (Call::ParseNeg | Call::ParsePrefixNeg, _) => bottom.to_vec(),
        (Call::ParsePos | Call::ParsePrefixPos, _) => top.to_vec(),
        (_, true) => [&top[..], &bottom[..]].concat(),
        (_, false) => [&top[..], &[(down, most)]].concat(),
    }
}

/// A random question of this form about so many digits.
pub fn random(form: Form, length: usize, random: &mut Random) -> Question {
    let mut text = Vec::new();
    if form.call.takes_sign() {
        text.extend_from_slice(random.pick(&[&b""[..], b"", b"+", b"-"]));
    }
    if random.below(24) == 0 {
        text.push(random.pick(b"\x00/:\xff+- "));
    }
    let zeros = match random.below(4) {
        0 => 0,
        1 => random.pick(&ZEROS).min(length),
        _ => length - random.below(form.number.width().min(length) + 1),
    };
    text.resize(text.len() + zeros, b'0');
    text.extend(random.digits(length - zeros));
    if random.below(12) == 0 {
        let at = random.below(text.len());
        text[at] = random.pick(b"\x00/:\xff");
    }
    if random.below(2) == 0 {
        text.extend_from_slice(random.pick(&TAILS));
    }
    Question { form, text }
}

/// For every form one random question of each length, and a few more.
pub fn mixed(generator: &mut Random) -> Vec<Question> {
    let mut questions = Vec::new();
    for form in Form::all() {
        for length in LENGTHS {
            questions.push(random(form, length, generator));
        }
        for _ in 0..4 {
            let length = 1 + generator.below(40);
            questions.push(random(form, length, generator));
        }
    }
    questions
}

/// Any question at all, for a comparison that is not printed.
pub fn any(forms: &[Form], generator: &mut Random) -> Question {
    let form = generator.pick(forms);
    let length = if generator.below(2) == 0 { generator.pick(&LENGTHS) } else { 1 + generator.below(72) };
    random(form, length, generator)
}
