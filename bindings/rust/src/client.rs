use crate::error::Error;
use crate::requests::{Requests, unrefused};
use crate::unpoisoned;
use std::collections::VecDeque;
use std::fmt;
use std::io::{self, BufRead, BufReader, Write};
use std::iter::Peekable;
use std::net::{TcpStream, ToSocketAddrs};
use std::sync::Mutex;
use std::time::Duration;

/// So many bytes of lines may be sent before their replies are read: both sides' buffers have room for as many, so that
/// nobody waits for the other to read.
const AHEAD: usize = 16_384;

/// A client of `grove serve`: a connection that is kept. Threads may share it; each waits until the line of another one
/// is answered, and gets the replies to its own lines.
///
/// ```no_run
/// use pickbracken::{Access, Client, Requests};
///
/// # fn main() -> Result<(), pickbracken::Error> {
/// let client = Client::connect(("127.0.0.1", 7777), None)?;
/// println!("{:?}", client.batch([[Access::take("/bulbs", 1)]])?.replies);
/// # Ok(())
/// # }
/// ```
///
/// Nothing is sent twice: a line whose reply hasn't come may have had its effect, and only its caller can know whether
/// it may be sent again. So once a server is [`Error::Lost`], the client is closed.
pub struct Client(Mutex<Connection>);

impl Client {
    /// Connects to a server, which is lost if there is a limit and it gives no answer for so long.
    ///
    /// # Errors
    ///
    /// [`Error::Lost`].
    pub fn connect(address: impl ToSocketAddrs, limit: Option<Duration>) -> Result<Client, Error> {
        let connection = connected(address, limit).map_err(|error| Error::Lost {
            why: format!("no server: {error}"),
            unanswered: 0,
        })?;
        Ok(Client(Mutex::new(connection)))
    }

    /// What comes of each of the lines, in order, as of [`Requests::send`]; lines are sent ahead of the replies. It
    /// ends with the first that isn't sent, or whose reply is lost. What comes of one line can be used for the next
    /// only if each is sent by itself. Replies that nobody takes are passed over by what is sent later. Meanwhile the
    /// client is its caller's alone.
    pub fn send_all<I>(&mut self, lines: I) -> impl Iterator<Item = Result<String, Error>>
    where
        I: IntoIterator,
        I::Item: AsRef<[u8]>,
    {
        let connection = unpoisoned(self.0.get_mut());
        Replies {
            passed: connection.sent.len(),
            connection,
            lines: Some(lines.into_iter().peekable()),
        }
    }
}

impl Requests for Client {
    fn send(&self, line: &[u8]) -> Result<String, Error> {
        let mut connection = unpoisoned(self.0.lock());
        connection.put(line)?;
        loop {
            let reply = connection.reply()?;
            if connection.sent.is_empty() {
                return unrefused(reply);
            }
        }
    }
}

impl fmt::Debug for Client {
    fn fmt(&self, out: &mut fmt::Formatter<'_>) -> fmt::Result {
        out.write_str("Client")
    }
}

/// The replies to lines that are sent ahead of them. There are no lines any more once one wasn't sent, or has no reply.
struct Replies<'c, L: Iterator> {
    connection: &'c mut Connection,
    /// Of earlier lines, whose replies nobody took.
    passed: usize,
    lines: Option<Peekable<L>>,
}

impl<L: Iterator<Item: AsRef<[u8]>>> Iterator for Replies<'_, L> {
    type Item = Result<String, Error>;

    fn next(&mut self) -> Option<Result<String, Error>> {
        for _ in 0..std::mem::take(&mut self.passed) {
            if let Err(why) = self.connection.reply() {
                return self.ended(why);
            }
        }
        while let Some(line) = self.line_ahead() {
            match self.connection.put(line.as_ref()) {
                Ok(true) => {}
                Ok(false) => self.lines = None,
                Err(why) => return self.ended(why),
            }
        }
        if self.connection.sent.is_empty() {
            return None;
        }
        match self.connection.reply() {
            Ok(reply) => Some(unrefused(reply)),
            Err(why) => self.ended(why),
        }
    }
}

impl<L: Iterator<Item: AsRef<[u8]>>> Replies<'_, L> {
    /// The next line, if there is one and it may be sent ahead of the replies.
    fn line_ahead(&mut self) -> Option<L::Item> {
        let (lines, sent) = (self.lines.as_mut()?, &self.connection.sent);
        let room = AHEAD.saturating_sub(sent.iter().sum());
        lines.next_if(|line| sent.is_empty() || line.as_ref().len() <= room)
    }

    fn ended(&mut self, why: Error) -> Option<Result<String, Error>> {
        self.lines = None;
        Some(Err(why))
    }
}

/// A connection, until it is closed; and the lengths of the lines that have no reply yet.
struct Connection {
    source: Option<BufReader<TcpStream>>,
    sent: VecDeque<usize>,
}

impl Connection {
    /// Whether the server takes the line. One that takes no more may have replied to the lines before.
    fn put(&mut self, line: &[u8]) -> Result<bool, Error> {
        if line.contains(&b'\n') {
            return Err(Error::LineFeed);
        }
        let ended = [line, b"\n"].concat();
        self.sent.push_back(ended.len());
        Ok(match &self.source {
            Some(source) => source.get_ref().write_all(&ended).is_ok(),
            None => false,
        })
    }

    /// The reply to the first line that has none.
    fn reply(&mut self) -> Result<String, Error> {
        let Some(source) = &mut self.source else {
            return Err(self.lost("the server was lost before".to_owned()));
        };
        let mut reply = Vec::new();
        if let Err(error) = source.read_until(b'\n', &mut reply) {
            return Err(self.lost(format!("the server is lost: {error}")));
        }
        if reply.pop() != Some(b'\n') {
            let why = "the server closed the connection before it had answered";
            return Err(self.lost(why.to_owned()));
        }
        match String::from_utf8(reply) {
            Ok(reply) if reply.starts_with('{') => {
                self.sent.pop_front();
                Ok(reply)
            }
            reply => {
                let is_http = reply.is_ok_and(|it| it.starts_with("HTTP/"));
                Err(self.lost(no_reply(is_http)))
            }
        }
    }

    /// Closes the connection.
    fn lost(&mut self, why: String) -> Error {
        let unanswered = self.sent.len();
        self.sent.clear();
        self.source = None;
        Error::Lost { why, unanswered }
    }
}

/// What is said of a line that is no reply of a session.
fn no_reply(is_http: bool) -> String {
    let why = if is_http {
        "it speaks HTTP"
    } else {
        "what it said is no JSON object"
    };
    format!("no reply of the server: {why}")
}

/// A connection to the first of the addresses at which there is a server.
fn connected(address: impl ToSocketAddrs, limit: Option<Duration>) -> io::Result<Connection> {
    let mut found = Err(io::Error::other("the name has no address"));
    for address in address.to_socket_addrs()? {
        found = match limit {
            None => TcpStream::connect(address),
            Some(limit) => TcpStream::connect_timeout(&address, limit),
        };
        if found.is_ok() {
            break;
        }
    }
    let stream = found?;
    stream.set_nodelay(true)?;
    stream.set_read_timeout(limit)?;
    stream.set_write_timeout(limit)?;
    Ok(Connection {
        source: Some(BufReader::new(stream)),
        sent: VecDeque::new(),
    })
}
