//! How names, numbers and flags are written in a field.

use crate::tables::Number;

const LONGEST_NAME: usize = 24;
const MOST_DIGITS: usize = 6;

/// 1 to 24 letters, digits and underscores.
pub fn is_name(field: &[u8]) -> bool {
    (1..=LONGEST_NAME).contains(&field.len())
        && field.iter().all(|&byte| byte.is_ascii_alphanumeric() || byte == b'_')
}

/// 1 to 6 digits without a leading zero.
pub fn number(field: &[u8]) -> Option<Number> {
    let leading_zero = field.len() > 1 && field[0] == b'0';
    let digits_only = field.iter().all(u8::is_ascii_digit);
    if !(1..=MOST_DIGITS).contains(&field.len()) || leading_zero || !digits_only {
        return None;
    }
    Some(field.iter().fold(0, |value, &digit| value * 10 + Number::from(digit - b'0')))
}

/// `true` or `false`.
pub fn flag(field: &[u8]) -> Option<bool> {
    match field {
        b"true" => Some(true),
        b"false" => Some(false),
        _ => None,
    }
}

#[cfg(test)]
mod tests {
    use super::*;

    #[test]
    fn names() {
        for good in ["a", "Z", "0", "_", "TV_2", "abcdefghijklmnopqrstuvwx"] {
            assert!(is_name(good.as_bytes()), "{good:?}");
        }
        for bad in
            ["", " a", "a ", "no-role", "a\"\"b", "\u{e9}", "a\0", "abcdefghijklmnopqrstuvwxy"]
        {
            assert!(!is_name(bad.as_bytes()), "{bad:?}");
        }
    }

    #[test]
    fn numbers() {
        assert_eq!(number(b"0"), Some(0));
        assert_eq!(number(b"10"), Some(10));
        assert_eq!(number(b"999999"), Some(999_999));
        for bad in ["", "00", "07", "1000000", "+1", "-1", " 1", "1 ", "1.0", "1,0", "0x1", "a"] {
            assert_eq!(number(bad.as_bytes()), None, "{bad:?}");
        }
    }

    #[test]
    fn flags() {
        assert_eq!(flag(b"true"), Some(true));
        assert_eq!(flag(b"false"), Some(false));
        for bad in ["", "True", "FALSE", "yes", "1", "true "] {
            assert_eq!(flag(bad.as_bytes()), None, "{bad:?}");
        }
    }
}
