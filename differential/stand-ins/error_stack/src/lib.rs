//! Stands in for the crate error_stack, with only what the original calls: a report holds
//! one error and the notes attached to it.

use std::fmt::Display;

#[derive(Debug)]
pub struct Report<C> {
    context: C,
    notes: Vec<String>,
}

impl<C> Report<C> {
    #[cold]
    pub fn new(context: C) -> Self {
        Self {
            context,
            notes: Vec::new(),
        }
    }

    #[cold]
    pub fn attach<A: Display>(mut self, note: A) -> Self {
        self.notes.push(note.to_string());
        self
    }

    pub fn current_context(&self) -> &C {
        &self.context
    }

    /// The notes, oldest first. They tell refusals apart that share one error.
    pub fn notes(&self) -> &[String] {
        &self.notes
    }
}
