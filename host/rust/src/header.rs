//! The sizes that the C header names, for those who make its calls.

const HEADER: &str = include_str!("../../include/carbon_account.h");

/// The value that the header gives a name.
pub fn size(name: &str) -> usize {
    let defined = format!("    {name} = ");
    let (_, behind) = HEADER.split_once(&defined).unwrap_or_else(|| panic!("the header names no {name}"));
    let digits = behind.split(|byte: char| !byte.is_ascii_digit()).next().unwrap_or_default();
    digits.parse().unwrap_or_else(|_| panic!("the header gives {name} no number"))
}

#[cfg(test)]
mod tests {
    use super::*;
    use crate::ranges::{BOOK_BYTES, LINE_BYTES, MOST_AREAS, MOST_SUBS};

    #[test]
    fn limits_are_those_of_the_documents() {
        assert_eq!(size("CARBON_MOST_AREAS"), MOST_AREAS);
        assert_eq!(size("CARBON_MOST_SUBS"), MOST_SUBS);
        assert_eq!(size("CARBON_BOOK_BYTES"), BOOK_BYTES);
        assert_eq!(size("CARBON_LINE_BYTES"), LINE_BYTES + 1);
    }
}
