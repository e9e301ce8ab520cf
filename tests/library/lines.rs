//! Opens a store of a document, and writes its reply to each line of standard input: `lines DOC < LINES`.

use pickbracken::{Error, FaultKind, Requests, Store};
use std::io::{self, BufRead, BufWriter, Write};
use std::{env, fs};

fn main() -> io::Result<()> {
    let document = fs::read(env::args().nth(1).expect("a document"))?;
    let store = Store::open_document(&document).expect("a store");
    let mut sink = BufWriter::new(io::stdout().lock());
    for line in io::stdin().lock().split(b'\n') {
        let reply = match store.send(&line?) {
            Ok(reply) => reply,
            Err(Error::Refused(fault)) => {
                assert_ne!(fault.kind(), FaultKind::Unknown, "{fault}");
                format!("{{\"error\":\"{}\"}}", fault.text())
            }
            Err(error) => panic!("{error}"),
        };
        assert_eq!(store.last_reply(), reply);
        sink.write_all(reply.as_bytes())?;
        sink.write_all(b"\n")?;
    }
    Ok(())
}
