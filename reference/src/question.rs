//! The question.

use crate::bytes::is_login;
use crate::times::WEEK;

pub const COMMAND_LENGTH: usize = 256;
pub const LOGIN_LENGTH: usize = 32;
pub const GROUPS: usize = 32;
pub const HOST_LENGTH: usize = 255;
pub const ARGUMENTS: usize = 64;
pub const ARGUMENT_LENGTH: usize = 256;

/// A question, good or not.
#[derive(Clone, Debug, PartialEq, Eq)]
pub struct Question {
    pub command: Vec<u8>,
    pub user: Vec<u8>,
    pub groups: Vec<Vec<u8>>,
    pub host: Vec<u8>,
    pub minute: u64,
    /// The age of the last authentication in minutes, or nothing for never.
    pub age: Option<i32>,
    pub arguments: Vec<Vec<u8>>,
}

impl Question {
    /// Whether the question has the form asked for.
    pub fn is_good(&self) -> bool {
        is_good_command(&self.command)
            && is_good_login(&self.user, LOGIN_LENGTH)
            && self.groups.len() <= GROUPS
            && self.groups.iter().all(|group| is_good_login(group, LOGIN_LENGTH))
            && is_good_login(&self.host, HOST_LENGTH)
            && self.minute < WEEK
            && self.arguments.len() <= ARGUMENTS
            && self.arguments.iter().all(|argument| is_good_argument(argument))
    }
}

fn is_good_command(command: &[u8]) -> bool {
    let is_good_byte = |byte: &u8| (0x21..=0x7E).contains(byte) && *byte != b':';
    let is_good_component =
        |component: &[u8]| !component.is_empty() && component != b"." && component != b"..";
    command.len() <= COMMAND_LENGTH
        && command.iter().all(is_good_byte)
        && command.split(|byte| *byte == b'/').all(is_good_component)
}

/// Whether these are the bytes of a user, group or host name, one of them and at most so many.
pub fn is_good_login(name: &[u8], most: usize) -> bool {
    !name.is_empty() && name.len() <= most && name.iter().all(|byte| is_login(*byte))
}

fn is_good_argument(argument: &[u8]) -> bool {
    argument.len() <= ARGUMENT_LENGTH && argument.iter().all(|byte| (0x20..=0x7E).contains(byte))
}

/// The strings of a raw list, each ended by a zero byte, and the bytes after the last zero byte.
pub fn zero_ended_strings(list: &[u8]) -> (Vec<&[u8]>, &[u8]) {
    let mut strings: Vec<&[u8]> = list.split(|byte| *byte == 0).collect();
    let rest = strings.pop().unwrap_or_default();
    (strings, rest)
}
