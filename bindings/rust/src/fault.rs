use std::fmt;

/// What is wrong with something that is refused, and where.
#[derive(Clone, Debug, PartialEq, Eq)]
pub struct Fault {
    text: String,
    name: String,
    place: String,
    hint: Option<String>,
}

impl Fault {
    pub(crate) fn of(text: String) -> Fault {
        let mut words: Vec<&str> = text.split(' ').collect();
        let name = words.remove(name_at(&words).min(words.len() - 1));
        let is_missing = name == "missing" && words.contains(&"access");
        Fault {
            name: if is_missing { "access-missing" } else { name }.to_owned(),
            place: words.join(" "),
            text,
            hint: None,
        }
    }

    pub(crate) fn with_hint(self, hint: Option<String>) -> Fault {
        Fault { hint, ..self }
    }

    /// The rule that is broken.
    pub fn kind(&self) -> FaultKind {
        FaultKind::of_name(&self.name)
    }

    /// The same in a word: `parent-not-held`.
    pub fn name(&self) -> &str {
        &self.name
    }

    /// What breaks it, as `step 7`, `list 3` or `node /a`; empty if the fault names no place.
    pub fn place(&self) -> &str {
        &self.place
    }

    /// Both, as the program prints them: `step 7 parent-not-held`.
    pub fn text(&self) -> &str {
        &self.text
    }

    /// What is wrong and where, for a person, if a server with `--hints` has said it.
    pub fn hint(&self) -> Option<&str> {
        self.hint.as_deref()
    }
}

impl fmt::Display for Fault {
    fn fmt(&self, out: &mut fmt::Formatter<'_>) -> fmt::Result {
        match &self.hint {
            None => out.write_str(&self.text),
            Some(hint) => write!(out, "{}; hint: {hint}", self.text),
        }
    }
}

/// Which of the words of a fault's text is its name.
fn name_at(words: &[&str]) -> usize {
    match words {
        ["job", _, inner @ ..] => 2 + name_at(inner),
        ["row" | "step" | "access" | "node" | "event", ..] => 2,
        ["tree", ..] => 1,
        _ => 0,
    }
}

/// Declares the kinds of faults, each with its name.
macro_rules! kinds {
    ($($(#[doc = $doc:literal])+ $kind:ident = $name:literal,)+) => {
        /// The rules by which something is refused (docs/FAULTS.md has what causes each).
        #[derive(Clone, Copy, Debug, PartialEq, Eq, Hash)]
        #[non_exhaustive]
        pub enum FaultKind {
            $($(#[doc = $doc])+ $kind,)+
            /// A rule that this crate doesn't know, of a later server. [`Fault::name`] has its name.
            Unknown,
        }

        impl FaultKind {
            fn of_name(name: &str) -> FaultKind {
                match name {
                    $($name => FaultKind::$kind,)+
                    _ => FaultKind::Unknown,
                }
            }
        }

        /// Each kind that has a name, with it.
        #[cfg(test)]
        const NAMED: &[(FaultKind, &str)] = &[$((FaultKind::$kind, $name),)+];
    };
}

kinds! {
    /// It isn't UTF-8, or isn't JSON.
    BadJson = "bad-json",
    /// A value has another form.
    Shape = "shape",
    /// No node has the path.
    NoPath = "no-path",
    /// An access takes no slots, or more than 1,000.
    BadLength = "bad-length",
    /// There is more than may be: bytes, accesses, lists, jobs or events.
    Limit = "limit",
    /// A line of a session has more than 1,048,576 bytes.
    LongLine = "long-line",
    /// A tree has no nodes.
    Empty = "empty",
    /// A tree has more than 4,096 nodes.
    TooMany = "too-many",
    /// A node's parent isn't the node before it, or above that.
    BadParent = "bad-parent",
    /// A node is deeper than 32.
    TooDeep = "too-deep",
    /// A node's name isn't one.
    BadName = "bad-name",
    /// A sibling has the same name.
    TwiceNamed = "twice-named",
    /// A weight isn't 1 to 1,000.
    BadWeight = "bad-weight",
    /// A step names a node or an access that there isn't.
    Strange = "strange",
    /// A node is locked twice.
    Relock = "relock",
    /// A node is locked while its parent isn't held.
    ParentNotHeld = "parent-not-held",
    /// A node is unlocked that isn't held.
    NotHeld = "not-held",
    /// An access isn't the next one of the list.
    WrongAccess = "wrong-access",
    /// An access is done while its node isn't held.
    AccessNotHeld = "access-not-held",
    /// An access of the list is never done.
    AccessMissing = "access-missing",
    /// A node is held at the end of a plan.
    StillHeld = "still-held",
    /// A flow's rows aren't those of the nodes that every plan locks.
    Rows = "rows",
    /// An amount of a flow is below 0.
    Sign = "sign",
    /// An amount of a flow is too large.
    TooBig = "too-big",
    /// What flows along a lock doesn't add up.
    LockBalance = "lock-balance",
    /// What flows along a release doesn't add up.
    ReleaseBalance = "release-balance",
    /// A flow proves another cost than the plan's.
    Value = "value",
    /// A run's worker had the records of another job.
    Foreign = "foreign",
    /// A run has ended before its jobs.
    Unfinished = "unfinished",
    /// An event names a job that there isn't.
    NoJob = "no-job",
    /// An event's job is at its end.
    Ended = "ended",
    /// An event takes a lock that another job holds.
    Blocked = "blocked",
    /// An event marks a job that isn't blocked.
    NotBlocked = "not-blocked",
    /// An event marks a step that is marked already.
    Marked = "marked",
    /// A run left other records or replies than are said to stand.
    Standing = "standing",
    /// A store has counted as many rounds as it can.
    Rounds = "rounds",
    /// A server has no connection slot.
    Busy = "busy",
}

#[cfg(test)]
mod tests {
    use super::{Fault, FaultKind, NAMED};

    fn parts(text: &str) -> (String, String) {
        let fault = Fault::of(text.to_owned());
        assert_eq!(fault.text(), text);
        assert_ne!(fault.kind(), FaultKind::Unknown, "{text}");
        (fault.name().to_owned(), fault.place().to_owned())
    }

    #[test]
    fn names_and_places() {
        for (text, name, place) in [
            ("bad-json", "bad-json", ""),
            ("shape plan 3", "shape", "plan 3"),
            ("tree too-many", "too-many", "tree"),
            ("row 2 bad-name", "bad-name", "row 2"),
            ("step 7 parent-not-held", "parent-not-held", "step 7"),
            ("access 0 missing", "access-missing", "access 0"),
            ("node /a still-held", "still-held", "node /a"),
            ("release-balance 2", "release-balance", "2"),
            ("value 4 -1", "value", "4 -1"),
            ("job 2 step 7 relock", "relock", "job 2 step 7"),
            ("job 0 access 1 missing", "access-missing", "job 0 access 1"),
            ("event 5 blocked 1", "blocked", "event 5 1"),
            ("standing records 3", "standing", "records 3"),
        ] {
            assert_eq!(parts(text), (name.to_owned(), place.to_owned()), "{text}");
        }
    }

    #[test]
    fn each_name_has_its_kind() {
        for (kind, name) in NAMED {
            assert_eq!(Fault::of((*name).to_owned()).kind(), *kind);
        }
        assert_eq!(Fault::of("new".to_owned()).kind(), FaultKind::Unknown);
    }

    #[test]
    fn a_hint_is_told_beside_the_text() {
        let fault = Fault::of("no-path".to_owned());
        assert_eq!(
            (fault.to_string().as_str(), fault.hint()),
            ("no-path", None)
        );
        let fault = fault.with_hint(Some("no node".to_owned()));
        assert_eq!(fault.to_string(), "no-path; hint: no node");
        assert_eq!((fault.text(), fault.hint()), ("no-path", Some("no node")));
    }
}
