//! Makes each call of a document on each document of a stream (documents.py), and writes the stream of answers.

use pickbracken::{Error, FaultKind, document};
use std::io::{self, BufReader, BufWriter, Read, Write};

type Call = fn(&[u8]) -> Result<String, Error>;

const CALLS: [Call; 7] = [
    document::plan,
    document::plan_document,
    document::check,
    document::judge,
    document::draw_svg,
    document::draw_text,
    document::audit,
];

fn main() -> io::Result<()> {
    let mut source = BufReader::new(io::stdin().lock());
    let mut sink = BufWriter::new(io::stdout().lock());
    while let Some(document) = next_document(&mut source)? {
        for call in CALLS {
            let (status, text) = match call(&document) {
                Ok(lines) => (0, lines),
                Err(Error::Refused(fault)) => {
                    assert_ne!(fault.kind(), FaultKind::Unknown, "{fault}");
                    (1, fault.text().to_owned())
                }
                Err(error) => (3, error.to_string()),
            };
            sink.write_all(&[status])?;
            sink.write_all(&(text.len() as u64).to_le_bytes())?;
            sink.write_all(text.as_bytes())?;
        }
    }
    sink.flush()
}

/// The next document; none if the stream has ended.
fn next_document(source: &mut impl Read) -> io::Result<Option<Vec<u8>>> {
    let mut length = [0; 8];
    if source.read(&mut length[..1])? == 0 {
        return Ok(None);
    }
    source.read_exact(&mut length[1..])?;
    let length = usize::try_from(u64::from_le_bytes(length)).map_err(io::Error::other)?;
    let mut document = vec![0; length];
    source.read_exact(&mut document)?;
    Ok(Some(document))
}
