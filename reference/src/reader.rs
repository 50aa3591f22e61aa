//! The reader of control lines and what it knows between them.

use crate::answer::{self, Answer};
use crate::entry::Entry;
use crate::fault::Fault;
use crate::lines::{fields_as_written, is_colon_line, ControlLine};
use crate::options::{self, Options, Place, Setting};
use crate::question::Question;
use crate::variables::{is_built_in, is_variable_name, Variables, NAME_LENGTH, TEXT_LENGTH};

/// How many `:if` may stand on one line.
pub const IF_DEPTH: usize = 4;

/// What is in force after the control lines read so far.
pub struct Reader<'question> {
    question: &'question Question,
    variables: Variables,
    global: Options,
    patterns_shell: bool,
    /// The decision of the first entry that accepts.
    decision: Option<Answer>,
}

impl<'question> Reader<'question> {
    pub fn new(question: &'question Question) -> Reader<'question> {
        Reader {
            question,
            variables: Variables::new(&question.user, &question.host),
            global: Options::default(),
            patterns_shell: false,
            decision: None,
        }
    }

    /// The decision after all control lines.
    pub fn decision(self) -> Answer {
        self.decision.unwrap_or(Answer::NoEntry)
    }

    /// Read one control line.
    pub fn read(&mut self, line: &ControlLine) -> Result<(), Fault> {
        let fields = fields_as_written(line.bytes)?;
        if fields.is_empty() {
            return Ok(());
        }
        self.read_fields(&fields, 1, line.number)
    }

    /// Read a control line, or the rest of an `:if`, that has at least one field.
    fn read_fields(
        &mut self,
        fields: &[Vec<u8>],
        depth: usize,
        number: usize,
    ) -> Result<(), Fault> {
        if !is_colon_line(fields) {
            return self.read_entry(fields, number);
        }
        let word = self.variables.text(&fields[0])?;
        let others = &fields[1..];
        match word.as_slice() {
            b":define" => self.read_define(others),
            b":global" | b":global_options" => self.read_global(others),
            b":if" => self.read_if(others, depth, number),
            _ => Err(Fault::Malformed),
        }
    }

    fn read_define(&mut self, fields: &[Vec<u8>]) -> Result<(), Fault> {
        let name = self.next_text(fields, 0)?;
        if name.len() > NAME_LENGTH {
            return Err(Fault::Size);
        }
        if !is_variable_name(&name) || is_built_in(&name) {
            return Err(Fault::Malformed);
        }
        let text = self.next_text(fields, 1)?;
        if text.len() > TEXT_LENGTH {
            return Err(Fault::Size);
        }
        if let Some(surplus) = fields.get(2) {
            self.variables.text(surplus)?;
            return Err(Fault::Malformed);
        }
        self.variables.define(&name, &text)
    }

    fn read_global(&mut self, fields: &[Vec<u8>]) -> Result<(), Fault> {
        let mut settings = Vec::new();
        for field in fields {
            let text = self.variables.text(field)?;
            settings.push(options::read(Place::Global, &text)?.ok_or(Fault::Malformed)?);
        }
        if settings.is_empty() || options::has_one_twice(&settings) {
            return Err(Fault::Malformed);
        }
        if settings.contains(&Setting::PatternsShell) {
            self.patterns_shell = true;
        }
        self.global.apply(&settings);
        Ok(())
    }

    fn read_if(&mut self, fields: &[Vec<u8>], depth: usize, number: usize) -> Result<(), Fault> {
        if depth > IF_DEPTH {
            return Err(Fault::Size);
        }
        let left = self.next_text(fields, 0)?;
        let operator = self.next_text(fields, 1)?;
        let equality_wanted = match operator.as_slice() {
            b"==" => true,
            b"!=" => false,
            _ => return Err(Fault::Malformed),
        };
        let right = self.next_text(fields, 2)?;
        let rest = &fields[3..];
        if rest.is_empty() {
            return Err(Fault::Malformed);
        }
        if (left == right) != equality_wanted {
            return Ok(());
        }
        self.read_fields(rest, depth + 1, number)
    }

    fn read_entry(&mut self, fields: &[Vec<u8>], number: usize) -> Result<(), Fault> {
        if !self.patterns_shell {
            return Err(Fault::PatternKind);
        }
        let entry = Entry::read(fields, &self.variables)?;
        if self.decision.is_some() {
            return Ok(());
        }
        if let Some(path) = entry.accepted_path(self.question) {
            let mut effective = self.global.clone();
            effective.apply(&entry.settings);
            self.decision = Some(answer::decide(self.question, number, path, effective));
        }
        Ok(())
    }

    /// The text of a field that must be there; all fields before it were good.
    fn next_text(&self, fields: &[Vec<u8>], index: usize) -> Result<Vec<u8>, Fault> {
        let field = fields.get(index).ok_or(Fault::Malformed)?;
        Ok(self.variables.text(field)?)
    }
}
