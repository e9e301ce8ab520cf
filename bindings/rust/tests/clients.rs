//! The client, at servers that answer as each test says.

use pickbracken::{Access, Client, Error, FaultKind, FlowRow, Reply, Requests, Step};
use std::io::{BufRead, BufReader, Write};
use std::net::{SocketAddr, TcpListener, TcpStream};
use std::sync::mpsc;
use std::thread;
use std::time::Duration;

const FLOW: &str = r#"[{"above":0,"first":1,"held":0,"last":1,"node":"/a","own":0}]"#;
/// No test waits for a server as long.
const LIMIT: Duration = Duration::from_secs(60);

/// A server of one connection, which ends with what its answer gives.
struct Server<A> {
    address: SocketAddr,
    ended: mpsc::Receiver<A>,
}

impl<A: Send + 'static> Server<A> {
    fn new(answer: impl FnOnce(TcpStream) -> A + Send + 'static) -> Server<A> {
        let listener = TcpListener::bind(("127.0.0.1", 0)).unwrap();
        let address = listener.local_addr().unwrap();
        let (told, ended) = mpsc::channel();
        thread::spawn(move || {
            let (stream, _) = listener.accept().unwrap();
            stream.set_read_timeout(Some(LIMIT)).unwrap();
            told.send(answer(stream))
        });
        Server { address, ended }
    }

    fn client(&self) -> Client {
        Client::connect(self.address, Some(LIMIT)).unwrap()
    }

    fn ended(self) -> A {
        self.ended.recv_timeout(LIMIT).expect("it ends")
    }
}

/// Answers each line with the next reply, and then closes; gives the lines that came.
fn replying(replies: Vec<String>) -> Server<Vec<String>> {
    Server::new(move |stream| {
        let mut source = BufReader::new(&stream);
        let mut seen = Vec::new();
        for reply in replies {
            let mut line = String::new();
            source.read_line(&mut line).unwrap();
            seen.push(line);
            (&stream)
                .write_all(format!("{reply}\n").as_bytes())
                .unwrap();
        }
        seen
    })
}

/// Answers each line with what it was.
fn echo() -> Server<()> {
    Server::new(|stream| {
        for line in BufReader::new(&stream).lines() {
            let reply = format!("{{\"echo\":{}}}\n", line.unwrap());
            (&stream).write_all(reply.as_bytes()).unwrap();
        }
    })
}

/// The next so many lines that come.
fn lines_of(stream: &TcpStream, count: usize) -> Vec<String> {
    let lines = BufReader::new(stream).lines().take(count);
    lines.map(Result::unwrap).collect()
}

fn texts(texts: &[&str]) -> Vec<String> {
    texts.iter().map(|&text| text.to_owned()).collect()
}

fn lost(error: Error) -> (String, usize) {
    match error {
        Error::Lost {
            why, unanswered, ..
        } => (why, unanswered),
        other => panic!("{other}"),
    }
}

#[test]
fn requests_and_replies() {
    let plan = format!(r#"{{"cost":1,"flow":{FLOW},"plan":[["lock","/a"],["access",0]]}}"#);
    let server = replying(texts(&[
        r#"{"places":[1,0],"replies":[[7,"ok"],["short"]],"round":3}"#,
        &plan,
        r#"{"cost":1}"#,
        r#"{"waits":[0,2],"weights":[5,1]}"#,
        r#"{"changed":2}"#,
    ]));
    let client = server.client();
    let lists = [
        vec![Access::get("/a"), Access::set("/a", 1)],
        vec![Access::take("/b", 9).lasting(2)],
    ];
    let round = client.batch(&lists).unwrap();
    assert_eq!((round.places, round.round), (vec![1, 0], 3));
    let wanted = [vec![Reply::Number(7), Reply::Stored], vec![Reply::Short]];
    assert_eq!(round.replies, wanted);
    let list = [Access::get("/a")];
    let plan = client.plan(&list).unwrap();
    assert!(plan.steps().eq([Step::Lock("/a"), Step::Access(0)]));
    let row = FlowRow {
        node: "/a",
        above: 0,
        held: 0,
        first: 1,
        last: 1,
        own: 0,
    };
    assert_eq!(plan.cost(), 1);
    assert!(plan.flow().unwrap().eq([row]));
    assert_eq!(client.check(&list, &plan), Ok(1));
    let told = client.weights().unwrap();
    assert_eq!((told.weights, told.waits), (vec![5, 1], vec![0, 2]));
    assert_eq!(client.reweigh(), Ok(2));
    let seen = server.ended();
    assert_eq!(
        seen[0],
        "{\"batch\":[[[\"get\",\"/a\",1],[\"set\",\"/a\",1,1]],[[\"take\",\"/b\",9,2]]]}\n"
    );
    let wanted = ["{\"weights\":null}\n", "{\"reweigh\":null}\n"];
    assert_eq!(seen[3..], wanted);
}

#[test]
fn a_refusal_has_the_hint_of_its_reply() {
    let server = replying(texts(&[
        r#"{"error":"no-path","hint":"plan 0: no node has the path \"/c\""}"#,
        r#"{"error":"long-line"}"#,
        r#"{"error":"newer"}"#,
    ]));
    let client = server.client();
    let mut faults = (0..3).map(|_| match client.plan(&[]) {
        Err(Error::Refused(fault)) => fault,
        other => panic!("{other:?}"),
    });
    let fault = faults.next().unwrap();
    assert_eq!((fault.kind(), fault.name()), (FaultKind::NoPath, "no-path"));
    let hint = r#"plan 0: no node has the path "/c""#;
    assert_eq!(fault.hint(), Some(hint));
    assert_eq!(fault.to_string(), format!("no-path; hint: {hint}"));
    let fault = faults.next().unwrap();
    assert_eq!((fault.kind(), fault.hint()), (FaultKind::LongLine, None));
    let fault = faults.next().unwrap();
    assert_eq!((fault.kind(), fault.name()), (FaultKind::Unknown, "newer"));
}

#[test]
fn what_is_no_reply_is_told() {
    let server = replying(texts(&[r#"{"cost":"1"}"#, r#"{"cost":-1}"#, "{1}"]));
    let client = server.client();
    for reply in [r#"{"cost":"1"}"#, r#"{"cost":-1}"#, "{1}"] {
        let found = client.plan(&[]).unwrap_err();
        assert_eq!(found, Error::NoReply(reply.to_owned()));
    }
}

#[test]
fn each_thread_gets_the_replies_to_its_own_lines() {
    let server = echo();
    let client = server.client();
    thread::scope(|scope| {
        for thread in 0..4 {
            let client = &client;
            scope.spawn(move || {
                for number in 0..200 {
                    let reply = client.send(format!("[{thread},{number}]").as_bytes());
                    let wanted = format!("{{\"echo\":[{thread},{number}]}}");
                    assert_eq!(reply, Ok(wanted));
                }
            });
        }
    });
}

/// So many that a server whose replies nobody read would stop reading.
#[test]
fn lines_are_sent_ahead() {
    let line = |number: usize| format!("[{number},\"{}\"]", "x".repeat(1_000));
    let server = echo();
    let mut client = server.client();
    let mut came = 0;
    for (number, reply) in client.send_all((0..2_000).map(line)).enumerate() {
        assert_eq!(reply, Ok(format!("{{\"echo\":{}}}", line(number))));
        came += 1;
    }
    assert_eq!(came, 2_000);
    // One that is longer than all that may be sent ahead goes by itself.
    let long = "1".repeat(100_000);
    let replies: Vec<_> = client.send_all(["1", &long, "2"]).collect();
    let wanted = ["1", &long, "2"].map(|line| Ok(format!("{{\"echo\":{line}}}")));
    assert_eq!(replies, wanted);
}

/// A server that answers once it has three lines: so many come before the first reply is read.
#[test]
fn replies_are_not_waited_for_before_the_next_line_is_sent() {
    let server = Server::new(|stream| {
        let lines = lines_of(&stream, 3);
        (&stream).write_all(b"{1}\n{2}\n{3}\n").unwrap();
        lines
    });
    let mut client = server.client();
    let replies: Vec<_> = client.send_all(["a", "b", "c"]).collect();
    assert_eq!(replies, ["{1}", "{2}", "{3}"].map(|it| Ok(it.to_owned())));
    assert_eq!(server.ended(), ["a", "b", "c"]);
}

/// Also after replies that nobody took, and after what is no line, of which nothing is sent.
#[test]
fn a_reply_is_that_of_its_line() {
    let server = replying(texts(&["{1}", "{2}", "{3}", "{4}"]));
    let mut client = server.client();
    let first = client.send_all(["a", "b", "c"]).next();
    assert_eq!(first, Some(Ok("{1}".to_owned())));
    assert_eq!(client.send(b"two\nlines"), Err(Error::LineFeed));
    assert_eq!(client.send(b"d"), Ok("{4}".to_owned()));
    let replies: Vec<_> = client.send_all(["two\nlines", "e"]).collect();
    assert_eq!(replies, [Err(Error::LineFeed)]);
    assert_eq!(server.ended(), ["a\n", "b\n", "c\n", "d\n"]);
}

#[test]
fn a_reply_that_nobody_took_is_of_no_later_line() {
    let server = replying(texts(&["{1}", "{2}", "{3}", "{4}", "{5}"]));
    let mut client = server.client();
    let first = client.send_all(["a", "b", "c"]).next();
    assert_eq!(first, Some(Ok("{1}".to_owned())));
    let replies: Vec<_> = client.send_all(["d", "e"]).collect();
    assert_eq!(replies, ["{4}", "{5}"].map(|it| Ok(it.to_owned())));
}

#[test]
fn what_has_no_reply_is_told() {
    let server = Server::new(|stream| {
        let lines = lines_of(&stream, 5);
        (&stream).write_all(b"{1}\n{2}\n{3").unwrap();
        lines
    });
    let mut client = server.client();
    let mut replies = client.send_all(["a", "b", "c", "d", "e"]);
    for wanted in ["{1}", "{2}"] {
        assert_eq!(replies.next(), Some(Ok(wanted.to_owned())));
    }
    let (why, unanswered) = lost(replies.next().unwrap().unwrap_err());
    let closed = "the server closed the connection before it had answered";
    assert_eq!((why.as_str(), unanswered), (closed, 3));
    assert_eq!(replies.next(), None);
    drop(replies);
    let (why, unanswered) = lost(client.send(b"f").unwrap_err());
    assert_eq!(
        (why.as_str(), unanswered),
        ("the server was lost before", 1)
    );
}

#[test]
fn a_server_that_takes_too_long_is_lost() {
    let (may_end, ended) = mpsc::channel::<()>();
    let server = Server::new(move |_stream| ended.recv_timeout(LIMIT).is_err());
    let limit = Some(Duration::from_millis(50));
    let client = Client::connect(server.address, limit).unwrap();
    let (why, unanswered) = lost(client.reweigh().unwrap_err());
    assert!(why.starts_with("the server is lost: "), "{why}");
    assert_eq!(unanswered, 1);
    drop(may_end);
    assert!(server.ended());
}

#[test]
fn a_server_of_something_else_is_lost() {
    for (line, why) in [
        ("HTTP/1.1 400 Bad Request\r", "it speaks HTTP"),
        ("", "what it said is no JSON object"),
        ("\u{1}", "what it said is no JSON object"),
    ] {
        let server = replying(texts(&[line]));
        let (told, unanswered) = lost(server.client().weights().unwrap_err());
        let wanted = format!("no reply of the server: {why}");
        assert_eq!((told, unanswered), (wanted, 1));
    }
}

#[test]
fn there_may_be_no_server() {
    let listener = TcpListener::bind(("127.0.0.1", 0)).unwrap();
    let address = listener.local_addr().unwrap();
    drop(listener);
    for limit in [None, Some(LIMIT)] {
        let (why, unanswered) = lost(Client::connect(address, limit).unwrap_err());
        assert!(why.starts_with("no server: "), "{why}");
        assert_eq!(unanswered, 0);
    }
}
