//! The script as its statements come: the order of table, settings and events,
//! repeated groups, and the limits, which are checked before anything grows.

use super::fault::Fault;
use super::field::GROUP_DEPTH;
use super::statement::Statement;
use crate::fresh::{loading, Entry, TABLE};
use crate::script::{Host, Script};
use crate::sheet::{length, write, Setting, Sheet};
use crate::step::{Call, Step};
use sheets::{LONGEST_SHEET, MOST_SETTINGS};

/// So many records a text for a host gives at most: 35 hours of ticks.
const MOST_STEPS: usize = 1_000_000;

/// What the text is to become, which decides its limits.
#[derive(Clone, Copy, Debug, PartialEq, Eq)]
pub enum Aim {
    Sheet,
    /// The text has a table or calls.
    Host,
}

pub struct Assembly {
    aim: Aim,
    table: Vec<Entry>,
    /// Whether a statement other than the table has come.
    begun: bool,
    settings: Vec<Setting>,
    steps: Vec<Step>,
    /// The line and the word of the first statement that is for a host alone.
    for_host: Option<(usize, &'static str)>,
    /// The repeats that have no end yet, the innermost last.
    open: Vec<Group>,
}

/// A repeat: where it stands in the text, and its first step.
struct Group {
    line: usize,
    count: usize,
    first: usize,
}

impl Assembly {
    pub fn of(aim: Aim) -> Assembly {
        Assembly {
            aim,
            table: vec![],
            begun: false,
            settings: vec![],
            steps: vec![],
            for_host: None,
            open: vec![],
        }
    }

    /// Adds the statement of this line, or says why it cannot be added.
    pub fn take(&mut self, line: usize, statement: Statement) -> Result<(), String> {
        self.begun |= !matches!(statement, Statement::Nothing | Statement::Table { .. });
        match statement {
            Statement::Nothing => Ok(()),
            Statement::Table { values } => self.add_to_table(line, &values),
            Statement::Settings { count, setting } => self.set(count, setting),
            Statement::Steps { count, step } => {
                self.need_room(count)?;
                self.note_for_host(line, step.call().map(Call::word));
                self.steps.extend(std::iter::repeat(step).take(count));
                Ok(())
            }
            Statement::Repeat { count } => self.begin(line, count),
            Statement::End => self.end(),
        }
    }

    /// The whole script; a repeat that is still open is a fault.
    pub fn finished(self) -> Result<Script, Fault> {
        if let Some(group) = self.open.first() {
            return Err(Fault {
                line: group.line,
                reason: "this repeat has no end".to_string(),
            });
        }
        let (line, word) = match self.for_host {
            None => return Ok(Script::Sheet(self.sheet())),
            Some(first) => first,
        };
        let table = match &self.table[..] {
            [] => None,
            entries => Some(loading(entries)?),
        };
        let reason = format!(
            "a run sheet has no place for {}; run and picture take it",
            word
        );
        let settings = self.settings.iter().map(write).map(Step::Event);
        Ok(Script::Host(Host {
            table,
            steps: settings.chain(self.steps).collect(),
            no_sheet: Fault { line, reason },
        }))
    }

    /// The sheet of a text without table and calls.
    fn sheet(self) -> Sheet {
        let event = |step: Step| match step {
            Step::Event(event) => Some(event),
            Step::Call(_) => None,
        };
        Sheet {
            settings: self.settings,
            events: self.steps.into_iter().filter_map(event).collect(),
        }
    }

    fn add_to_table(&mut self, line: usize, values: &[u8]) -> Result<(), String> {
        if self.begun {
            return Err("a table after another statement; it stands before all others".to_string());
        }
        let entry = |&value| Entry { line, value };
        self.table.extend(values.iter().map(entry));
        self.note_for_host(line, Some(TABLE));
        Ok(())
    }

    /// Keeps the first word that is for a host alone.
    fn note_for_host(&mut self, line: usize, word: Option<&'static str>) {
        self.for_host = self.for_host.or(word.map(|word| (line, word)));
    }

    fn set(&mut self, count: usize, setting: Setting) -> Result<(), String> {
        if !self.steps.is_empty() {
            return Err("a setting after an event; write is for those".to_string());
        }
        if !self.open.is_empty() {
            return Err("a setting in a repeat; only events can stand there".to_string());
        }
        match self.aim {
            Aim::Sheet if self.settings.len() + count > MOST_SETTINGS => {
                return Err(format!("more than {} settings", MOST_SETTINGS));
            }
            Aim::Sheet => {}
            // Each has a record, as a step has.
            Aim::Host => self.need_room(count)?,
        }
        let settings = std::iter::repeat(setting).take(count);
        self.settings.extend(settings);
        Ok(())
    }

    fn begin(&mut self, line: usize, count: usize) -> Result<(), String> {
        if self.open.len() == GROUP_DEPTH {
            return Err(format!("repeats stand more than {} deep", GROUP_DEPTH));
        }
        let first = self.steps.len();
        self.open.push(Group { line, count, first });
        Ok(())
    }

    /// The group's steps stand there once; the other times follow.
    fn end(&mut self) -> Result<(), String> {
        let group = self.open.pop().ok_or("an end without a repeat")?;
        let body = group.first..self.steps.len();
        if body.is_empty() {
            return Ok(());
        }
        let more = group.count - 1;
        self.need_room(more * body.len())
            .map_err(|reason| format!("{} (repeat of line {})", reason, group.line))?;
        for _ in 0..more {
            self.steps.extend_from_within(body.clone());
        }
        Ok(())
    }

    fn need_room(&self, more_steps: usize) -> Result<(), String> {
        let (settings, steps) = (self.settings.len(), self.steps.len() + more_steps);
        match self.aim {
            Aim::Sheet if length(settings, steps) > LONGEST_SHEET => {
                Err("the sheet would be over 65,535 bytes".to_string())
            }
            Aim::Host if settings + steps > MOST_STEPS => {
                Err("there would be more than 1,000,000 records".to_string())
            }
            _ => Ok(()),
        }
    }
}
