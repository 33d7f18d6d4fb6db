//! Numbers and lists in lines and answers.

#![forbid(unsafe_code)]

use std::fmt;

/// Reads a decimal number without leading zeros, at most 4,294,967,295.
pub(crate) fn number(digits: &[u8]) -> Option<u32> {
    let leading_zero = digits.len() > 1 && digits[0] == b'0';
    if digits.is_empty() || leading_zero {
        return None;
    }
    digits.iter().try_fold(0u32, |number, &digit| {
        if !digit.is_ascii_digit() {
            return None;
        }
        number.checked_mul(10)?.checked_add(u32::from(digit - b'0'))
    })
}

/// Reads items parted by commas, at least one.
pub(crate) fn list<T>(text: &[u8], item: impl Fn(&[u8]) -> Option<T>) -> Option<Vec<T>> {
    text.split(|&byte| byte == b',').map(item).collect()
}

/// Writes items parted by commas.
pub(crate) fn write_list<T: fmt::Display>(f: &mut fmt::Formatter<'_>, items: &[T]) -> fmt::Result {
    for (place, item) in items.iter().enumerate() {
        if place > 0 {
            f.write_str(",")?;
        }
        item.fmt(f)?;
    }
    Ok(())
}

#[cfg(test)]
mod tests {
    use super::*;

    #[test]
    fn numbers_are_decimal_without_leading_zeros() {
        assert_eq!(number(b"0"), Some(0));
        assert_eq!(number(b"10"), Some(10));
        assert_eq!(number(b"4294967295"), Some(u32::MAX));
        for wrong in ["", "00", "01", "4294967296", "99999999999999999999", "+1", "-1", " 1", "1 ", "1a", "\u{661}"] {
            assert_eq!(number(wrong.as_bytes()), None, "{wrong:?}");
        }
    }

    #[test]
    fn lists_have_no_empty_items() {
        assert_eq!(list(b"1,2", number), Some(vec![1, 2]));
        for wrong in ["", ",", "1,", ",1", "1,,2"] {
            assert_eq!(list(wrong.as_bytes(), number), None, "{wrong:?}");
        }
    }
}
