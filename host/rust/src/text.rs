//! Numbers as text: "decimal without leading zeros".

/// The digits of the greatest number of 64 bits.
const MOST_DIGITS: usize = 20;

/// The number that a text starts with, of any length, and what stands behind it. What is too large for 64 bits stays at
/// their greatest number, which is over every range.
pub fn split_number(text: &[u8]) -> Option<(u64, &[u8])> {
    let mut value: u64 = 0;
    let mut behind = text;
    while let [digit @ b'0'..=b'9', rest @ ..] = behind {
        value = value.saturating_mul(10).saturating_add(u64::from(digit - b'0'));
        behind = rest;
    }
    match &text[..text.len() - behind.len()] {
        [] | [b'0', _, ..] => None,
        _ => Some((value, behind)),
    }
}

/// The number that a field is.
pub fn number(field: &[u8]) -> Option<u64> {
    match split_number(field)? {
        (number, []) => Some(number),
        _ => None,
    }
}

pub fn push_number(text: &mut Vec<u8>, number: u64) {
    let mut digits = [0; MOST_DIGITS];
    let mut first = digits.len();
    let mut rest = number;
    loop {
        first -= 1;
        digits[first] = b'0' + (rest % 10) as u8;
        rest /= 10;
        if rest == 0 {
            break;
        }
    }
    text.extend_from_slice(&digits[first..]);
}

/// Numbers among a line's fields: a comma before each.
pub fn push_numbers(text: &mut Vec<u8>, numbers: &[u64]) {
    for &number in numbers {
        text.push(b',');
        push_number(text, number);
    }
}

/// A line of a letter and numbers.
pub fn push_line(text: &mut Vec<u8>, letter: u8, numbers: &[u64]) {
    text.push(letter);
    push_numbers(text, numbers);
    text.push(b'\n');
}

#[cfg(test)]
mod tests {
    use super::*;

    #[test]
    fn numbers_read() {
        for (field, value) in [("0", 0), ("7", 7), ("10", 10), ("18446744073709551614", u64::MAX - 1)] {
            assert_eq!(number(field.as_bytes()), Some(value), "{field}");
        }
        for field in ["18446744073709551615", "18446744073709551616", &"9".repeat(500)] {
            assert_eq!(number(field.as_bytes()), Some(u64::MAX), "{field}");
        }
        for field in ["", "00", "01", "+1", "-1", " 1", "1 ", "1\r", "1\n", "1,", "1.", "0x1", "1e3", "/", ":", "٣"] {
            assert_eq!(number(field.as_bytes()), None, "{field:?}");
        }
    }

    #[test]
    fn lines_written() {
        let mut text = Vec::new();
        push_line(&mut text, b'E', &[0, 12]);
        push_line(&mut text, b'H', &[]);
        assert_eq!(text, b"E,0,12\nH\n");
    }

    #[test]
    fn numbers_written() {
        for number in [0, 9, 10, 99, 100, 2199, 960_000_000_000, u64::MAX] {
            let mut text = b"A,".to_vec();
            push_number(&mut text, number);
            assert_eq!(text, format!("A,{number}").into_bytes());
        }
    }
}
