//! The functions of the static library as they stand in `include/supertab.h`, for callers who lend
//! their own buffers. [`crate::answer`], [`crate::write_record`], [`crate::read_record`],
//! [`crate::Figures`] and [`crate::su_answer`] are the safe ways to call them.

/// The fewest bytes of the answer buffer.
pub const BUFFER_LENGTH: usize = 2_048;

/// The fewest numbers of the report.
pub const REPORT_LENGTH: usize = 24;

/// The bytes of stack that suffice for a thread which makes these calls.
pub const STACK: usize = 98_304;

/// The answer for a report with fewer numbers.
pub const SMALL_REPORT: u8 = 255;

/// Indices of the report; `include/supertab.h` says what each number means.
pub mod report {
    pub const LINE_OR_PLACE: usize = 0;
    pub const WRITTEN: usize = 1;
    pub const AUTH: usize = 2;
    pub const TIMEOUT_SET: usize = 3;
    pub const TIMEOUT: usize = 4;
    pub const NARGS_SET: usize = 5;
    pub const NARGS_LOW: usize = 6;
    pub const NARGS_HIGH: usize = 7;
    pub const PATH_END: usize = 8;
    pub const UID_END: usize = 9;
    pub const EUID_END: usize = 10;
    pub const GID_END: usize = 11;
    pub const EGID_END: usize = 12;
    pub const CAUSE: usize = 21;
}

/// The bytes of a log record.
pub const RECORD_LENGTH: usize = 8;

/// The fewest numbers that are lent for the fields of a record.
pub const FIELDS_LENGTH: usize = 6;

/// The result of reading a record for fewer numbers.
pub const SMALL_FIELDS: u8 = 255;

/// Indices of the fields of a record; `include/supertab.h` says what each number means.
pub mod field {
    pub const NUMBER: usize = 0;
    pub const LINE: usize = 1;
    pub const MINUTE: usize = 2;
    pub const AUTH: usize = 3;
    pub const AUTHENTICATED: usize = 4;
    pub const AGE: usize = 5;
}

/// The fewest numbers that are lent for figures.
pub const FIGURES_LENGTH: usize = 64;

/// The most records that are given to the same figures.
pub const FIGURES_LIMIT: usize = 1_000_000;

/// The result for lent arrays that are too short, and for numbers that are no figures.
pub const UNUSABLE_FIGURES: u8 = 255;

/// Indices of the figures; `include/supertab.h` says what each number means.
pub mod figure {
    pub const ANSWERS: usize = 0;
    pub const WEEKDAYS: usize = 24;
    pub const HOURS: usize = 32;
    pub const BELOW_ZERO_SUM: usize = 56;
    pub const AGE_SUM: usize = 57;
    pub const AGE_COUNT: usize = 58;
    pub const REFUSED: usize = 59;
    pub const GIVEN: usize = 60;
}

/// The fewest numbers of the report of an answer from a su file.
pub const SU_REPORT_LENGTH: usize = 1;

/// The answer from a su file for a report with fewer numbers.
pub const SMALL_SU_REPORT: u8 = 255;

/// Answers from a su file; `include/supertab.h` says what each means.
pub mod su {
    pub const NOPASS: u8 = 0;
    pub const OWNPASS: u8 = 1;
    pub const NO_RULE: u8 = 2;
    pub const DENY: u8 = 3;
    pub const BAD_QUESTION: u8 = 10;
    pub const LONG_FILE: u8 = 11;
    pub const REFUSED_BYTE: u8 = 12;
    pub const CUT_SHORT: u8 = 13;
    pub const MALFORMED: u8 = 14;
}

extern "C" {
    /// Answers a question from a table, as `include/supertab.h` says.
    ///
    /// # Safety
    ///
    /// Each pointer is valid for the number of elements behind it and not null, also for none;
    /// `buffer` and `report` may be written and overlap nothing else that is passed.
    pub fn supertab_answer(
        table: *const u8,
        table_length: usize,
        command: *const u8,
        command_length: usize,
        user: *const u8,
        user_length: usize,
        groups: *const u8,
        groups_length: usize,
        host: *const u8,
        host_length: usize,
        minute: u32,
        authenticated: bool,
        age: i32,
        args: *const u8,
        args_length: usize,
        buffer: *mut u8,
        buffer_length: usize,
        report: *mut i64,
        report_length: usize,
    ) -> u8;

    /// Packs an answer into the eight bytes of a log record, as `include/supertab.h` says.
    ///
    /// # Safety
    ///
    /// `record` may be written, is valid for `record_length` bytes and not null, also for none.
    pub fn supertab_record_write(
        number: u8,
        line: u16,
        minute: u32,
        auth: bool,
        authenticated: bool,
        age: i32,
        record: *mut u8,
        record_length: usize,
    ) -> u8;

    /// Reads a log record, as `include/supertab.h` says.
    ///
    /// # Safety
    ///
    /// Each pointer is valid for the number of elements behind it and not null, also for none;
    /// `fields` may be written and overlaps no byte of the record.
    pub fn supertab_record_read(
        record: *const u8,
        record_length: usize,
        fields: *mut i64,
        fields_length: usize,
    ) -> u8;

    /// Writes the figures of no records, as `include/supertab.h` says.
    ///
    /// # Safety
    ///
    /// `figures` may be written, is valid for `figures_length` numbers and not null, also for none.
    pub fn supertab_figures_new(figures: *mut i64, figures_length: usize) -> u8;

    /// Adds a batch of log records to figures, as `include/supertab.h` says.
    ///
    /// # Safety
    ///
    /// Each pointer is valid for the number of elements behind it and not null, also for none;
    /// `figures` and `refused` may be written, and no two of the three overlap.
    pub fn supertab_figures_feed(
        figures: *mut i64,
        figures_length: usize,
        batch: *const u8,
        batch_length: usize,
        refused: *mut i64,
        refused_length: usize,
    ) -> u8;

    /// Answers a question from a su file, as `include/supertab.h` says.
    ///
    /// # Safety
    ///
    /// Each pointer is valid for the number of elements behind it and not null, also for none;
    /// `report` may be written and overlaps nothing else that is passed.
    pub fn supertab_su_answer(
        file: *const u8,
        file_length: usize,
        target: *const u8,
        target_length: usize,
        user: *const u8,
        user_length: usize,
        groups: *const u8,
        groups_length: usize,
        report: *mut i64,
        report_length: usize,
    ) -> u8;
}
