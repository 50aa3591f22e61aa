//! The question.

/// Who asks for which command, where and when.
///
/// Any bytes may stand in it; what is not as said here is answered by
/// [`Refusal::Question`](crate::Refusal::Question).
#[derive(Clone, Copy, Debug, PartialEq, Eq)]
pub struct Question<'a> {
    /// 1 to 256 bytes from 0x21 to 0x7E without `:`, not beginning with `/`; no component between
    /// slashes is empty, `.` or `..`.
    pub command: &'a [u8],
    /// 1 to 32 letters, digits, `.`, `_` and `-`.
    pub user: &'a [u8],
    /// At most 32 groups of the same form as the user.
    pub groups: &'a [&'a [u8]],
    /// 1 to 255 bytes of the same alphabet.
    pub host: &'a [u8],
    /// The minute of the week, 0 to 10,079; Monday 0:00 is 0.
    pub minute: u32,
    /// The minutes since the user last gave the password, below zero where the clock went back;
    /// `None` for never.
    pub age: Option<i32>,
    /// At most 64 arguments of at most 256 bytes from 0x20 to 0x7E.
    pub arguments: &'a [&'a [u8]],
}

/// Strings one behind the other, each ended by a zero byte, as the static library takes them.
///
/// A zero byte inside a string is written as 1: no group and no argument may have either, so that
/// the string stays one string and is refused for it.
#[must_use]
pub fn zero_ended<S: AsRef<[u8]>>(strings: &[S]) -> Vec<u8> {
    let mut bytes = Vec::new();
    for string in strings {
        bytes.extend(string.as_ref().iter().map(|byte| (*byte).max(1)));
        bytes.push(0);
    }
    bytes
}
