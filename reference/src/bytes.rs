//! Kinds of bytes.

/// A space or a tab.
pub fn is_blank(byte: u8) -> bool {
    byte == b' ' || byte == b'\t'
}

/// A single or a double quote.
pub fn is_quote(byte: u8) -> bool {
    byte == b'\'' || byte == b'"'
}

/// A letter or an underscore, with which a variable's name begins.
pub fn begins_name(byte: u8) -> bool {
    byte.is_ascii_alphabetic() || byte == b'_'
}

/// A letter, a digit or an underscore.
pub fn is_word(byte: u8) -> bool {
    byte.is_ascii_alphanumeric() || byte == b'_'
}

/// A byte of the alphabet of user, group and host names.
pub fn is_login(byte: u8) -> bool {
    byte.is_ascii_alphanumeric() || byte == b'.' || byte == b'_' || byte == b'-'
}

/// A byte that no table may hold.
pub fn is_refused(byte: u8) -> bool {
    byte != b'\t' && byte != b'\n' && !(0x20..=0x7E).contains(&byte)
}

/// The place of the first byte that no table may hold.
pub fn first_refused(table: &[u8]) -> Option<usize> {
    table.iter().position(|byte| is_refused(*byte))
}

/// The place where a short text first stands in a longer one.
pub fn find(text: &[u8], sought: &[u8]) -> Option<usize> {
    text.windows(sought.len()).position(|window| window == sought)
}

/// The value of one or more digits, at most the given number of them.
pub fn digits(text: &[u8], most: usize) -> Option<u32> {
    if text.is_empty() || text.len() > most || !text.iter().all(u8::is_ascii_digit) {
        return None;
    }
    Some(text.iter().fold(0, |value, digit| value * 10 + u32::from(digit - b'0')))
}
