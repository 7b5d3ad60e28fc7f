//! Lines, words and single values of the texts.

/// The lines of a text: a line feed ends one, a carriage return before it is dropped, the last
/// may lack its line feed.
pub fn lines(text: &[u8]) -> impl Iterator<Item = &[u8]> {
    text.split_inclusive(|b| *b == b'\n').map(|line| match line.strip_suffix(b"\n") {
        Some(body) => body.strip_suffix(b"\r").unwrap_or(body),
        None => line,
    })
}

pub fn words(line: &str) -> impl Iterator<Item = &str> {
    line.split([' ', '\t']).filter(|w| !w.is_empty())
}

/// One to 20 decimal digits, with `-` before them where `signed`.
pub fn number(word: &str, signed: bool) -> Option<i128> {
    let (digits, negative) = match word.strip_prefix('-') {
        Some(digits) if signed => (digits, true),
        _ => (word, false),
    };
    if !(1..=20).contains(&digits.len()) {
        return None;
    }
    let mut value = 0i128;
    for b in digits.bytes() {
        if !b.is_ascii_digit() {
            return None;
        }
        value = value * 10 + i128::from(b - b'0');
    }
    Some(if negative { -value } else { value })
}

pub fn ip(word: &str) -> Option<u32> {
    let mut parts = word.split('.');
    let mut ip = 0;
    for _ in 0..4 {
        let part = number(parts.next()?, false)?;
        ip = ip << 8 | u32::from(u8::try_from(part).ok()?);
    }
    parts.next().is_none().then_some(ip)
}

fn hex_digits(text: &str) -> Option<u128> {
    let mut value = 0;
    for b in text.bytes() {
        value = value << 4 | u128::from((b as char).to_digit(16)?);
    }
    Some(value)
}

fn hyphenated(word: &str) -> Option<u128> {
    if word.len() != 36 || !word.is_ascii() {
        return None;
    }
    let mut parts = word.split('-');
    let mut value = 0;
    for digits in [8, 4, 4, 4, 12] {
        let part = parts.next().filter(|p| p.len() == digits)?;
        value = value << (4 * digits) | hex_digits(part)?;
    }
    parts.next().is_none().then_some(value)
}

/// Simple, hyphenated, braced and urn forms.
pub fn uuid(word: &str) -> Option<u128> {
    if word.len() == 32 {
        return hex_digits(word);
    }
    let inner = word.strip_prefix('{').and_then(|w| w.strip_suffix('}'));
    hyphenated(inner.or(word.strip_prefix("urn:uuid:")).unwrap_or(word))
}

pub fn hex(word: &str, out: &mut Vec<u8>) -> Option<()> {
    if !word.len().is_multiple_of(2) {
        return None;
    }
    let digit = |b: u8| (b as char).to_digit(16);
    for pair in word.as_bytes().chunks_exact(2) {
        out.push((digit(pair[0])? << 4 | digit(pair[1])?) as u8);
    }
    Some(())
}

pub fn is_name(word: &str) -> bool {
    let b = word.as_bytes();
    (1..=32).contains(&b.len())
        && b[0].is_ascii_alphabetic()
        && b.iter().all(|c| c.is_ascii_alphanumeric() || *c == b'_' || *c == b'-')
}
