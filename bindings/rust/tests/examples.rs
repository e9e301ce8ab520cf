//! The documents of examples/, and what the program prints of them.

use pickbracken::{Error, document};
use std::fs;
use std::path::{Path, PathBuf};

type Call = fn(&[u8]) -> Result<String, Error>;

/// Each command by the end of the names of what it prints.
const CALLS: [(&str, Call); 6] = [
    (".plan.txt", document::plan),
    (".check.txt", document::check),
    (".judge.txt", document::judge),
    (".draw.svg", document::draw_svg),
    (".draw.txt", document::draw_text),
    (".audit.txt", document::audit),
];

fn examples() -> PathBuf {
    Path::new(env!("CARGO_MANIFEST_DIR")).join("../../examples")
}

/// What the program prints of a document.
fn printed(answer: Result<String, Error>) -> String {
    answer.unwrap_or_else(|error| format!("{error}\n"))
}

#[test]
fn says_what_the_program_prints() {
    let mut tried = 0;
    for file in fs::read_dir(examples()).unwrap() {
        let file = file.unwrap().path();
        let name = file.file_name().unwrap().to_str().unwrap();
        for (end, call) in CALLS {
            let Some(stem) = name.strip_suffix(end) else {
                continue;
            };
            let read = fs::read(examples().join(format!("{stem}.json"))).unwrap();
            assert_eq!(
                printed(call(&read)),
                fs::read_to_string(&file).unwrap(),
                "{name}"
            );
            tried += 1;
        }
    }
    assert!(tried > 20, "{tried} answers were compared");
}

#[test]
fn a_planned_document_is_checked() {
    let read = fs::read(examples().join("settings.json")).unwrap();
    let planned = document::plan_document(&read).unwrap();
    assert_eq!(document::check(planned.as_bytes()).unwrap(), "cost 16\n");
}

#[test]
fn refusals_have_a_name_and_a_place() {
    let read = fs::read(examples().join("stock-let-go-early.json")).unwrap();
    let Err(Error::Refused(fault)) = document::judge(&read) else {
        panic!("it isn't refused");
    };
    assert_eq!(
        (fault.name(), fault.place(), fault.text()),
        ("parent-not-held", "step 7", "step 7 parent-not-held")
    );
    assert_eq!(
        document::plan(b"{").unwrap_err().to_string(),
        "refused bad-json"
    );
    assert_eq!(
        document::plan(b"").unwrap_err().to_string(),
        "refused bad-json"
    );
    let long = vec![b' '; 4_194_305];
    assert_eq!(
        document::plan(&long).unwrap_err().to_string(),
        "refused limit whole"
    );
    assert_eq!(
        document::audit(&long).unwrap_err().to_string(),
        "refused bad-json"
    );
}

#[test]
fn a_text_may_be_long() {
    let mut rows = vec![r#"{"parent":null,"name":"","weight":1}"#.to_owned()];
    rows.extend((1..4096).map(|number| format!(r#"{{"parent":0,"name":"n{number}","weight":1}}"#)));
    let nodes = format!("[{}]", rows.join(","));
    let document = format!(r#"{{"nodes":{nodes},"list":[["get","/n4095"]]}}"#);
    let planned = document::plan_document(document.as_bytes()).unwrap();
    assert!(planned.len() > 100_000 && planned.ends_with("}\n"));
    assert_eq!(document::check(planned.as_bytes()).unwrap(), "cost 1\n");
}
