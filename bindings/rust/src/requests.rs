use crate::access::{Access, Reply};
use crate::error::Error;
use crate::fault::Fault;
use crate::json::Value;
use crate::plan::{FlowRow, Plan, Step};
use crate::writing::{claim, written_list};

/// So much of what is no reply is told.
const MOST_TOLD: usize = 100;

/// The requests of a session (docs/SESSIONS.md), to a [`Store`](crate::Store) in this process or to a
/// [`Client`](crate::Client)'s server.
///
/// Each may be [`Error::Refused`], by which nothing changes, with the fault's name, and with a hint if the server says
/// one. A server may be [`Error::Lost`], and what it says [`Error::NoReply`]; a store may be out of
/// [`Error::NoMemory`], and is then as it was.
pub trait Requests {
    /// The reply to a line, both without a line feed.
    ///
    /// # Errors
    ///
    /// As above; and [`Error::LineFeed`] of a line with one, to a server.
    fn send(&self, line: &[u8]) -> Result<String, Error>;

    /// Runs the lists as one batch, alone or in a round with others'.
    ///
    /// # Errors
    ///
    /// As above.
    fn batch<L: AsRef<[Access]>>(
        &self,
        lists: impl IntoIterator<Item = L>,
    ) -> Result<Round, Error> {
        let lists = lists.into_iter().map(|it| written_list(it.as_ref()));
        let lists: Vec<String> = lists.collect();
        ask(self, "batch", &format!("[{}]", lists.join(",")), |reply| {
            Some(Round {
                places: reply.member("places")?.each(Value::number)?,
                replies: reply.member("replies")?.each(|it| it.each(read_reply))?,
                round: reply.member("round")?.number()?,
            })
        })
    }

    /// The settled plan of a list, by the weights as they stand.
    ///
    /// # Errors
    ///
    /// As above.
    fn plan(&self, list: &[Access]) -> Result<Plan, Error> {
        ask(self, "plan", &written_list(list), |reply| {
            let steps = reply.member("plan")?.items()?.iter().map(read_step);
            let rows = reply.member("flow")?.items()?.iter().map(read_row);
            let steps: Option<Vec<Step<'_>>> = steps.collect();
            let rows: Option<Vec<FlowRow<'_>>> = rows.collect();
            Some(Plan::new(reply.member("cost")?.number()?, steps?, rows?))
        })
    }

    /// What a plan costs that its certificate proves to be least.
    ///
    /// # Errors
    ///
    /// As above.
    fn check(&self, list: &[Access], plan: &Plan) -> Result<u64, Error> {
        ask(self, "check", &claim(list, plan)?, |reply| {
            reply.member("cost")?.number()
        })
    }

    /// The weights and the waits, by node.
    ///
    /// # Errors
    ///
    /// As above.
    fn weights(&self) -> Result<Weights, Error> {
        ask(self, "weights", "null", |reply| {
            Some(Weights {
                weights: reply.member("weights")?.each(Value::number)?,
                waits: reply.member("waits")?.each(Value::number)?,
            })
        })
    }

    /// Makes new weights of the old ones and the waits, and gives how many have changed.
    ///
    /// # Errors
    ///
    /// As above.
    fn reweigh(&self) -> Result<usize, Error> {
        ask(self, "reweigh", "null", |reply| {
            reply.member("changed")?.number()
        })
    }
}

/// What is read of the reply to a request.
fn ask<A>(
    requests: &(impl Requests + ?Sized),
    name: &str,
    asked: &str,
    read: impl FnOnce(&Value) -> Option<A>,
) -> Result<A, Error> {
    let reply = requests.send(format!("{{\"{name}\":{asked}}}").as_bytes())?;
    let found = Value::read(&reply).as_ref().and_then(read);
    found.ok_or_else(|| Error::NoReply(reply.chars().take(MOST_TOLD).collect()))
}

fn read_step(value: &Value) -> Option<Step<'_>> {
    let [kind, of] = value.items()? else {
        return None;
    };
    match kind.text()? {
        "lock" => Some(Step::Lock(of.text()?)),
        "unlock" => Some(Step::Unlock(of.text()?)),
        "access" => Some(Step::Access(of.number()?)),
        _ => None,
    }
}

fn read_row(value: &Value) -> Option<FlowRow<'_>> {
    let amount = |name| value.member(name)?.number();
    Some(FlowRow {
        node: value.member("node")?.text()?,
        above: amount("above")?,
        held: amount("held")?,
        first: amount("first")?,
        last: amount("last")?,
        own: amount("own")?,
    })
}

fn read_reply(value: &Value) -> Option<Reply> {
    match value.text() {
        Some("ok") => Some(Reply::Stored),
        Some("range") => Some(Reply::Range),
        Some("short") => Some(Reply::Short),
        Some(_) => None,
        None => value.number().map(Reply::Number),
    }
}

/// A reply as it is, if it is no refusal.
pub(crate) fn unrefused(reply: String) -> Result<String, Error> {
    if !reply.starts_with("{\"error\":") {
        return Ok(reply);
    }
    match Value::read(&reply).as_ref().and_then(refusal) {
        Some(fault) => Err(Error::Refused(fault)),
        None => Ok(reply),
    }
}

/// The fault that a refusal tells.
fn refusal(reply: &Value) -> Option<Fault> {
    let name = reply.member("error")?.text()?;
    let hint = reply.member("hint").and_then(Value::text);
    Some(Fault::of(name.to_owned()).with_hint(hint.map(str::to_owned)))
}

/// What a batch is answered.
#[derive(Clone, Debug, PartialEq, Eq)]
#[non_exhaustive]
pub struct Round {
    /// Of each list its place in the serial order of the round.
    pub places: Vec<usize>,
    /// The replies of each list.
    pub replies: Vec<Vec<Reply>>,
    /// The number of the round.
    pub round: u64,
}

/// The weights of a store's nodes, and how often each was waited for, in the tree's order.
#[derive(Clone, Debug, PartialEq, Eq)]
#[non_exhaustive]
pub struct Weights {
    /// Of each node what it weighs.
    pub weights: Vec<u32>,
    /// How often it was waited for since the last reweighing.
    pub waits: Vec<u32>,
}
