//! Rules of a grammar, as functions from a text to every way in which the text can begin with what the rule derives.
//! A way is what was read and the rest of the text. A text follows a rule if some way leaves no rest.

pub type Ways<'t, T> = Vec<(T, &'t [u8])>;

/// The values of those ways that read the whole text.
pub fn complete<T>(ways: Ways<T>) -> Vec<T> {
    ways.into_iter().filter(|(_, rest)| rest.is_empty()).map(|(value, _)| value).collect()
}

/// Each way, followed by each way of a second rule.
pub fn then<'t, A: Clone, B>(ways: Ways<'t, A>, rule: impl Fn(&'t [u8]) -> Ways<'t, B>) -> Ways<'t, (A, B)> {
    let on = |(first, rest): (A, &'t [u8])| {
        rule(rest).into_iter().map(move |(second, rest)| ((first.clone(), second), rest))
    };
    ways.into_iter().flat_map(on).collect()
}

pub fn map<'t, A, B>(ways: Ways<'t, A>, change: impl Fn(A) -> B) -> Ways<'t, B> {
    ways.into_iter().map(|(value, rest)| (change(value), rest)).collect()
}

/// The rule once, or nothing.
pub fn maybe<'t, T>(text: &'t [u8], rule: impl Fn(&'t [u8]) -> Ways<'t, T>) -> Ways<'t, Option<T>> {
    let mut ways = map(rule(text), Some);
    ways.push((None, text));
    ways
}

/// The ways of either list.
pub fn either<'t, T>(mut ways: Ways<'t, T>, others: Ways<'t, T>) -> Ways<'t, T> {
    ways.extend(others);
    ways
}

pub fn word<'t>(text: &'t [u8], word: &[u8]) -> Ways<'t, ()> {
    match text.strip_prefix(word) {
        Some(rest) => vec![((), rest)],
        None => vec![],
    }
}

/// The word in any mix of upper and lower case.
pub fn word_in_any_case<'t>(text: &'t [u8], word: &[u8]) -> Ways<'t, ()> {
    match text.split_at_checked(word.len()) {
        Some((start, rest)) if start.eq_ignore_ascii_case(word) => vec![((), rest)],
        _ => vec![],
    }
}

/// One or more spaces.
pub fn spaces(text: &[u8]) -> Ways<'_, ()> {
    let count = text.iter().take_while(|&&byte| byte == b' ').count();
    (1..=count).map(|n| ((), &text[n..])).collect()
}

/// Decimal digits, as many as the two bounds allow.
pub fn digits(text: &[u8], least: usize, most: usize) -> Ways<'_, &[u8]> {
    let count = text.iter().take_while(|byte| byte.is_ascii_digit()).count();
    (least..=most.min(count)).map(|n| text.split_at(n)).collect()
}

/// The number that decimal digits write.
pub fn number(text: &[u8], least: usize, most: usize) -> Ways<'_, u32> {
    map(digits(text, least, most), |digits| digits.iter().fold(0, |n, digit| n * 10 + (digit - b'0') as u32))
}
