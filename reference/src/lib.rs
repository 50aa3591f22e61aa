//! A reader of rule tables: a table and a question give one answer, a log record keeps it, and
//! figures are made of many records. Beside it a reader of su files.

pub mod answer;
pub mod bytes;
pub mod cases;
pub mod entry;
pub mod fault;
pub mod figures;
pub mod figures_cases;
pub mod glob;
pub mod hexadecimal;
pub mod lines;
pub mod options;
pub mod pattern;
pub mod program;
pub mod question;
pub mod reader;
pub mod record;
pub mod record_cases;
pub mod suauth;
pub mod suauth_cases;
pub mod times;
pub mod users;
pub mod variables;
