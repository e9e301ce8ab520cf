use crate::document::{draw_svg, draw_text};
use crate::error::Error;

/// How a drawing is written.
#[derive(Clone, Copy, Debug, PartialEq, Eq)]
#[non_exhaustive]
pub enum Form {
    /// An SVG document.
    Svg,
    /// Lines for a terminal.
    Text,
}

/// The drawing of a document.
pub(crate) fn drawn(form: Form, document: &str) -> Result<String, Error> {
    match form {
        Form::Svg => draw_svg(document.as_bytes()),
        Form::Text => draw_text(document.as_bytes()),
    }
}
