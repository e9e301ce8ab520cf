//! The commands over the bytes of a document, as the program reads it and prints it (docs/FORMATS.md).
//!
//! What is refused is an [`Error::Refused`], with the fault that the program prints.

use crate::error::Error;
use crate::library::Command;

/// The cost of the settled plan of the document's list, the plan, and the flow that proves it: three lines.
pub fn plan(document: &[u8]) -> Result<String, Error> {
    Command::Plan.say(document)
}

/// The document with that plan and that flow in it, as a line.
pub fn plan_document(document: &[u8]) -> Result<String, Error> {
    Command::PlanDocument.say(document)
}

/// The line of the cost of the document's plan, which its flow proves to be least.
pub fn check(document: &[u8]) -> Result<String, Error> {
    Command::Check.say(document)
}

/// The cost of the document's plan, and the replies and the records of its list: three lines.
pub fn judge(document: &[u8]) -> Result<String, Error> {
    Command::Judge.say(document)
}

/// The settled plan, and above it the document's own, if it has one, as an SVG document.
pub fn draw_svg(document: &[u8]) -> Result<String, Error> {
    Command::DrawSvg.say(document)
}

/// The same as lines for a terminal.
pub fn draw_text(document: &[u8]) -> Result<String, Error> {
    Command::DrawText.say(document)
}

/// What the run of the document's jobs replies and leaves that its events are: four lines.
pub fn audit(document: &[u8]) -> Result<String, Error> {
    Command::Audit.say(document)
}
