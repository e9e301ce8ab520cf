"""The limits that pages state: each with the constant of the code that tests it, and the words around its number.

Of a file a constant is named, or what is reckoned of constants; or, of any file, a pattern whose group is the number.
A sentence has `{}` for the number, which may be written with commas or without. With a unit behind it, the number is
how many of these the constant is, and behind `2^` which power of two it is.
"""
from __future__ import annotations

LIMITS = [
    (
        "crates/grove_tree/src/rules.rt",
        "MOST_ROWS",
        [
            ("README.md", "| tree | {} nodes, depth "),
            ("docs/PROTOCOL.md", "A tree has at most {} nodes"),
            ("docs/FORMATS.md", "- there are 1 to {} of them;"),
            ("docs/CLUSTER.md", "one process with at most {} nodes"),
            ("docs/CLUSTER.md", "if {} nodes and one machine"),
            ("docs/LIBRARY.md", "A `Tree` has at most {} nodes"),
            ("docs/FORMATS.md", "there are no rows, or more than {} |"),
            ("docs/DECISIONS.md", "the tree, which has at most {} nodes"),
        ],
    ),
    (
        "crates/grove_tree/src/rules.rt",
        "DEEPEST",
        [
            ("README.md", " nodes, depth {}, weights "),
            ("docs/PROTOCOL.md", "no node deeper than {}."),
            ("docs/FORMATS.md", "- no row lies deeper than {};"),
            ("docs/FORMATS.md", "is `/`, or 1 to {} names"),
        ],
    ),
    (
        "crates/grove_tree/src/rules.rt",
        "HEAVIEST",
        [
            ("README.md", ", weights 1 to {} |"),
            ("docs/PROTOCOL.md", "Weights are 1 to {}."),
            ("docs/FORMATS.md", "- a weight is 1 to {}."),
            ("docs/FORMATS.md", "A weight is 1 to {}, and"),
            ("docs/LIBRARY.md", "or it is none; a weight or a length isn't 1 to {}, or"),
        ],
    ),
    (
        "crates/grove_tree/src/rules.rt",
        "LONGEST_NAME",
        [
            ("docs/PROTOCOL.md", "Every other name has 1 to {} bytes"),
            ("docs/FORMATS.md", "- a name has 1 to {} bytes"),
        ],
    ),
    (
        "crates/grove_access/src/list.rt",
        "MOST_ACCESSES",
        [
            ("README.md", "| transaction | {} accesses,"),
            ("docs/PROTOCOL.md", "a list of at most {} accesses"),
            ("docs/FORMATS.md", "`list`: more than {} accesses are `limit`"),
            ("docs/LIBRARY.md", "path; a length isn't 1 to 1,000, or a list has more than {} accesses"),
            ("docs/LIBRARY.md", "; a weight or a length isn't 1 to 1,000, or a list has more than {} accesses"),
        ],
    ),
    (
        "crates/grove_access/src/list.rt",
        "LONGEST_ACCESS",
        [
            ("README.md", "each 1 to {} slots (units of time) long |"),
            ("docs/PROTOCOL.md", "its *length*, from 1 to {},"),
            ("docs/FORMATS.md", "what is read has 1 to {}."),
            ("docs/FORMATS.md", "the length is 0 or above {}."),
            ("docs/FORMATS.md", "the length there is 0 or above {} |"),
            ("docs/LIBRARY.md", "no node has the path; a length isn't 1 to {}, or"),
        ],
    ),
    (
        "crates/grove_wire/src/lists.rt",
        "MOST_LISTS",
        [
            ("README.md", "| batch | {} transactions,"),
            ("docs/FORMATS.md", "`lists`: more than {} lists are `limit`"),
            ("docs/SESSIONS.md", "A round has at most 16 lines and {} lists"),
            ("docs/PROOFS.md", "as many as have at most {} lists"),
        ],
    ),
    ("crates/grove_wire/src/jobs.rt", "MOST_JOBS", [("docs/FORMATS.md", "`jobs`: more than {} jobs are `limit`")]),
    ("crates/grove_wire/src/events.rt", "MOST_EVENTS", [("docs/FORMATS.md", "more than {} events are `limit`")]),
    (
        "crates/grove_wire/src/document.rt",
        "MOST_BYTES",
        [
            ("docs/FORMATS.md", "in UTF-8 and in at most {} bytes"),
            ("docs/FAULTS.md", "more than {} bytes, for `audit`"),
            ("docs/FORMATS.md", "is UTF-8 of at most {} bytes"),
            ("docs/FORMATS.md", "give the same bytes, at most {}."),
        ],
    ),
    (
        "crates/grove_wire/src/document.rt",
        "MOST_HISTORY_BYTES",
        [
            ("docs/FORMATS.md", "as `audit` reads it, may have {} bytes"),
            ("docs/FAULTS.md", "bytes, for `audit` {};"),
        ],
    ),
    (
        "crates/grove_words/src/options.rt",
        "MOST_WORKERS",
        [
            ("README.md", " transactions, {} workers |"),
            ("docs/COMMANDS.md", "(`--workers N`, 1 to {}, by default"),
            ("docs/COMMANDS.md", "65,536 steps or more, 1 to {}, by default"),
        ],
    ),
    (
        "crates/grove_words/src/options.rt",
        "FEW_WORKERS",
        [("docs/COMMANDS.md", "steps or more, 1 to 16, by default {};")],
    ),
    (
        "crates/grove_words/src/definitions.rt",
        "MOST_HTTP_SEATS",
        [
            ("README.md", ", 1 to {} more over HTTP;"),
            ("docs/COMMANDS.md", "over HTTP at once, 1 to {}, by default"),
            ("docs/PAGE.md", "as `--http-seats N` says, 1 to {},"),
            ("docs/OPERATING.md", "may be 256 MiB, and {} of them"),
        ],
    ),
    (
        "crates/grove_words/src/options.rt",
        "HTTP_SEATS",
        [
            ("docs/COMMANDS.md", "1 to 1,024, by default {};"),
            ("docs/PAGE.md", "1 to 1,024, and by default {}."),
            ("docs/OPERATING.md", "there are up to {} connections more"),
            ("docs/OPERATING.md", "over HTTP cost more: {} bodies"),
        ],
    ),
    (
        "crates/grove_words/src/definitions.rt",
        "LONGEST_IDLE",
        [("docs/SESSIONS.md", "`--idle SECONDS`, from 1 to {},")],
    ),
    (
        "crates/grove_words/src/definitions.rt",
        "LAST_PORT",
        [("docs/COMMANDS.md", "the port to listen on, 1 to {}, or")],
    ),
    (
        "crates/grove/src/serving.rt",
        "SLOTS",
        [
            ("README.md", "| server | {} connections at once,"),
            ("docs/COMMANDS.md", "on up to {} connections at once"),
            ("docs/SESSIONS.md", "There are {} connection slots"),
            ("docs/PAGE.md", "`grove page` has {} connection slots"),
            ("docs/COMMANDS.md", "Up to {} connections are served"),
            ("docs/SESSIONS.md", "when one of the {} ends"),
            ("docs/OPERATING.md", "So {} connections bound"),
            ("docs/OPERATING.md", "So two of the {} connection slots"),
            ("docs/OPERATING.md", "all {} connection slots are used"),
        ],
    ),
    (
        "crates/grove_session/src/answers.rt",
        "LINE_LIMIT",
        [
            ("README.md", "lines of {} MiB"),
            ("docs/SESSIONS.md", "A line of more than {} bytes is read"),
            ("docs/FORMATS.md", "A line of more than {} bytes"),
            ("docs/FAULTS.md", "more than {} bytes before the line feed"),
            ("docs/PAGE.md", "A line of more than {} bytes"),
            ("docs/OPERATING.md", "the line that it reads, {} bytes"),
        ],
    ),
    (
        "crates/grove_session/src/sessions.rt",
        "MOST_HELD",
        [
            ("docs/SESSIONS.md", "at the latest when they have {} KiB"),
            ("docs/DECISIONS.md", "replies wait, up to {} KiB"),
        ],
    ),
    (
        "crates/grove_desk/src/board.rt",
        "MOST_LINES",
        [
            ("docs/SESSIONS.md", "- At most {} callers wait with their lines;"),
            ("docs/SESSIONS.md", "A round has at most {} lines"),
            ("docs/DECISIONS.md", "the first lines of {} callers"),
        ],
    ),
    ("crates/grove_desk/src/pipeline.rt", "MOST_TOGETHER", [("docs/SESSIONS.md", "are put together, up to {} with")]),
    (
        "crates/grove_desk/src/pipeline.rt",
        "MOST_BYTES",
        [("docs/SESSIONS.md", "with at most {} bytes. They are answered")],
    ),
    (
        "crates/grove_line/src/line_reader.rt",
        "MOST_KEPT",
        [("docs/OPERATING.md", "for lines, {} for what reads them")],
    ),
    ("crates/grove_desk/src/desk.rt", "ALONE", [("docs/DECISIONS.md", "has put lines {} times in a row")]),
    (
        "crates/grove_page/src/service.rt",
        "MOST_LINES",
        [
            ("docs/PAGE.md", "a body of more than {} line feeds"),
            ("docs/PAGE.md", "the body has more than {} line feeds"),
        ],
    ),
    (
        "crates/grove_page/src/service.rt",
        "MOST_KEPT",
        [
            ("docs/PAGE.md", "After a body of more than {} bytes"),
            ("docs/OPERATING.md", "bodies above {} bytes are answered"),
        ],
    ),
    (
        "crates/grove_page/src/serving.rt",
        "MOST_BODY",
        [
            ("docs/PAGE.md", "the body has more than {} bytes |"),
            ("docs/OPERATING.md", "a body of {} bytes that waits"),
            ("docs/OPERATING.md", "A body of more than {} bytes gets 413"),
        ],
    ),
    (
        "crates/grove_page/src/replies_sink.rt",
        "MOST_REPLIES",
        [
            ("docs/PAGE.md", "the replies would have more than {} MiB"),
            ("docs/PROOFS.md", "left out only if {} bytes"),
        ],
    ),
    (
        "crates/grove_build/src/kept_plans.rt",
        "MOST_KEPT",
        [
            ("docs/OPERATING.md", "the steps of {} kept plans"),
            ("docs/DECISIONS.md", "At most {} plans, and"),
        ],
    ),
    (
        "crates/grove_store/src/kept_texts.rt",
        "MOST_TEXTS",
        [
            ("docs/OPERATING.md", "kept replies to `plan` lines, {} with"),
            ("docs/DECISIONS.md", "to `plan` lines, {} with"),
        ],
    ),
    (
        "crates/grove_store/src/kept_texts.rt",
        "MOST_BYTES",
        [
            ("docs/OPERATING.md", "with {} MiB together"),
            ("docs/DECISIONS.md", "with at most {} MiB together"),
        ],
    ),
    (
        "crates/grove_store/src/waiting.rt",
        "MOST_WAITS",
        [
            ("docs/PROTOCOL.md", "what would exceed {} stays at"),
            ("docs/PROTOCOL.md", "would exceed 1,000 stays at {}."),
        ],
    ),
    (
        "crates/grove_base/src/line.rt",
        "MOST",
        [
            ("docs/SESSIONS.md", "A hint is 1 to {} printable characters"),
            ("docs/DECISIONS.md", "that only 1 to {} printable"),
        ],
    ),
    (
        "crates/grove_run/src/worth.rt",
        "WORTH_A_THREAD",
        [
            ("docs/DECISIONS.md", "enough is jobs of {} steps"),
            ("docs/COMMANDS.md", "A batch of fewer than {} steps"),
            ("docs/DECISIONS.md", "A batch of fewer than {} steps"),
        ],
    ),
    (
        "crates/grove_store/src/worth.rt",
        "WORTH_THREADS",
        [
            ("docs/COMMANDS.md", "how many workers run a round of {} steps or more"),
            ("docs/SESSIONS.md", "only in rounds of {} steps or more"),
            ("docs/PROTOCOL.md", "A round of fewer than {} steps has none"),
            ("docs/DECISIONS.md", "round of fewer than {} steps"),
        ],
    ),
    (
        "crates/grove/src/saving.rt",
        "MOST_SECONDS",
        [
            ("docs/COMMANDS.md", "sent nothing for {} seconds"),
            ("docs/FAULTS.md", "sends nothing for {} seconds"),
            ("docs/DECISIONS.md", "sends nothing for {} seconds"),
        ],
    ),
    (
        "crates/grove_wire/src/document.rt",
        "MOST_ITEMS",
        [
            ("docs/FORMATS.md", "both are unsigned and at most {}."),
            ("docs/FORMATS.md", "an access in the list, from 0, at most {}."),
            ("docs/FORMATS.md", "the number of a job, from 0, at most {}."),
        ],
    ),
    ("crates/grove_session/src/sessions.rt", "MOST_READS", [("docs/SESSIONS.md", "the source was read 2^{} times")]),
    ("crates/grove_session/src/open_line.rt", "MOST_ROOM", [("docs/OPERATING.md", "it keeps {} bytes for lines")]),
    (
        "crates/grove_desk/src/board.rt",
        "MOST_TAKEN",
        [
            ("docs/SESSIONS.md", "Up to {} lines leave together"),
            ("docs/DECISIONS.md", "the rounds of up to {} lines share"),
            ("docs/PAGE.md", "the rounds of up to {} lines share"),
            ("docs/OPERATING.md", "answered together, up to {}."),
        ],
    ),
    ("crates/grove_desk/src/desk.rt", "LARGE_LINE", [("docs/OPERATING.md", "those above {} bytes are read")]),
    ("crates/grove_serve/src/watching.rt", "LONGEST_WAIT", [("docs/PAGE.md", "or after {} seconds, with what")]),
    (
        "crates/grove_hint/src/session.rt",
        "MOST_READ",
        [("docs/SESSIONS.md", "A line of more than {} bytes isn't examined")],
    ),
    ("crates/grove/src/hint_lines.rt", "MOST_HINTS", [("docs/COMMANDS.md", "lines are answered: at most {}.")]),
    ("crates/grove_draw/src/text.rt", "NAMES", [("docs/COMMANDS.md", "a name of more than {} letters")]),
    (
        "crates/grove_serve/src/log.rt",
        "MOST_LINES",
        [
            ("docs/SESSIONS.md", "At most {} events are logged"),
            ("docs/FAULTS.md", "or more than {} events in a second"),
        ],
    ),
    ("crates/grove_serve/src/connections.rt", "FAILURES", [("docs/SESSIONS.md", "After each {} such errors")]),
    ("crates/grove_serve/src/room.rt", "MOST_HEAD", [("docs/PAGE.md", "if its head of at most {} bytes")]),
    ("crates/grove_data/src/data.rt", "FEW_BYTES", [("docs/OPERATING.md", "after more than {} MiB of rounds")]),
    ("crates/grove_proof/src/row_sums.rt", "GREATEST", [("docs/CERTIFICATE.md", "No amount is above {}.")]),
    ("crates/grove_line/src/reading.rt", "MOST_NESTED", [("docs/FORMATS.md", "Values that nest {} deep are read")]),
    ("crates/grove_table/src/planting.rt", "MOST_NODES", [("docs/PROOFS.md", "or with more than {} nodes")]),
    (
        "crates/grove_table/src/paths.rt",
        "LONGEST_NAME",
        [("docs/FORMATS.md", "length, and its name | 4, 1, up to {} |")],
    ),
    (
        "crates/grove_nodes/src/building.rt",
        "MOST_NODES",
        [
            ("docs/LIBRARY.md", "keeps a tree of at most {} nodes"),
            ("include/grove.h", "tree, of 1 to {} nodes"),
        ],
    ),
    (
        "bindings/python/pickbracken/shapes.py",
        "MOST_DEPTH",
        [("docs/LIBRARY.md", "An accessed node is at most {} below")],
    ),
    ("bindings/python/pickbracken/lists.py", "MOST_LISTS", [("docs/LIBRARY.md", "At most {} lists are kept")]),
    ("bindings/python/pickbracken/shapes.py", "MOST_STEPS", [("docs/LIBRARY.md", "lists are kept, and {} steps")]),
    ("bindings/python/pickbracken/accesses.py", "MOST", [("docs/LIBRARY.md", "-9223372036854775808 to {}.")]),
    (
        "cluster/grove_etcd/choosing.py",
        "MOST_JOBS",
        [
            ("docs/CLUSTER.md", "One audit has at most {} jobs"),
            ("docs/CLUSTER.md", "or once {} jobs have ended"),
        ],
    ),
    ("cluster/grove_etcd/choosing.py", "MOST_NODES", [("docs/CLUSTER.md", "at most 256 jobs, {} nodes")]),
    ("cluster/grove_etcd/choosing.py", "MOST_EVENTS", [("docs/CLUSTER.md", "4,096 nodes and 2^{} events")]),
    ("cluster/grove_etcd/following.py", "EVERY_SECONDS", [("docs/CLUSTER.md", "Each {} seconds (`--every`)")]),
    (
        "cluster/grove_etcd/judging.py",
        "MOST_BYTES",
        [
            ("docs/CLUSTER.md", "list and plan has at most {} bytes"),
            ("docs/CLUSTER.md", "its text has more than {} bytes"),
        ],
    ),
    ("cluster/grove_etcd/keys.py", r"JOB_NAME = .*?\{1,(\d+)\}", [("docs/CLUSTER.md", "an ID has 1 to {} of")]),
    (
        "cluster/grove_etcd/keys.py",
        "FORMAT",
        [
            ("docs/CLUSTER.md", "gives the store format {}."),
            ("docs/CLUSTER.md", "don't begin (`other-format {}`)"),
        ],
    ),
    ("cluster/grove_etcd/members.py", "MOST_OPERATIONS", [("docs/CLUSTER.md", "It has to allow {} operations")]),
    ("cluster/grove_etcd/signs.py", "PATIENCE", [("docs/CLUSTER.md", "Keep `--patience` at its {} seconds")]),
    ("cluster/grove_etcd/worker.py", "MOST_WAITING", [("docs/CLUSTER.md", "`--most-waiting N` ({}) says")]),
    ("cluster/work", r'"--tries", type=count, default=(\d+)', [("docs/CLUSTER.md", "After `--tries` of them ({})")]),
    (
        "cluster/grove_etcd/submitting.py",
        "MOST_PARTS * MOST_JOBS",
        [("cluster/README.md", "Submitters put up to {} jobs in one")],
    ),
    ("cluster/grove_etcd/worker.py", "MOST_SHORT", [("cluster/README.md", "looks at the oldest {}.")]),
    ("cluster/grove_etcd/worker.py", "MOST_TOGETHER", [("cluster/README.md", "After two of fewer than {} jobs")]),
    ("cluster/grove_etcd/worker.py", "MOMENT_SECONDS", [("cluster/README.md", "jobs within {} ms the worker")]),
    ("cluster/grove_etcd/worker.py", "LONG_GATHER_SECONDS", [("cluster/README.md", "waits {} ms for more")]),
    ("cluster/grove_etcd/worker.py", "GATHER_SECONDS", [("cluster/README.md", "or {} ms after one of few")]),
    ("cluster/grove_etcd/shares.py", "MOST_ALONE", [("cluster/README.md", "have a share, one for each {}.")]),
    (
        "cluster/grove_etcd/shares.py",
        "LONGEST_LEFT_SECONDS",
        [("cluster/README.md", "nothing is begun, and for {} otherwise")],
    ),
    ("cluster/grove_etcd/leash.py", "MARGIN_SECONDS", [("cluster/README.md", "less a tenth and {} ms")]),
    ("examples/nginx.conf", r"rate=(\d+)r/s", [("docs/OPERATING.md", "more than {} requests a second for long")]),
    ("examples/nginx.conf", r"limit_conn +grove_each (\d+)", [("docs/OPERATING.md", "for long, or {} at once")]),
    (
        "examples/nginx.conf",
        r"limit_conn +grove_all (\d+)",
        [
            ("docs/OPERATING.md", "and for more than {} at once in all"),
            ("docs/OPERATING.md", "but for the limit of {}."),
        ],
    ),
    ("bindings/python/pyproject.toml", r'requires-python = ">=3\.(\d+)"', [("docs/LIBRARY.md", "from Python 3.{} on")]),
    (
        "bindings/rust/Cargo.toml",
        r'rust-version = "1\.(\d+)"',
        [
            ("docs/LIBRARY.md", "It needs Rust 1.{} or later"),
            ("docs/VERIFY.md", "of Rust 1.{} or later"),
        ],
    ),
    ("tools/given.py", "MOST_BYTES", [("docs/VERIFY.md", "reads at most {} MiB of standard input")]),
    (
        "tools/edits",
        "MOST_OF_GATE",
        [
            ("docs/VERIFY.md", "At most {} must-fail edits in"),
            ("CONTRIBUTING.md", "tries at most {} edits, in"),
        ],
    ),
    (
        "tools/edits",
        "MOST_CRATES",
        [
            ("docs/VERIFY.md", "must-fail edits in {} crates"),
            ("CONTRIBUTING.md", "edits, in at most {} crates"),
        ],
    ),
    (
        "tools/prose",
        "MOST_WORDS",
        [
            ("docs/VERIFY.md", "sentences have at most {} words"),
            ("CONTRIBUTING.md", "Its sentences have {} words"),
        ],
    ),
    (
        "tools/prose",
        "MOST_CHARACTERS",
        [
            ("docs/VERIFY.md", "aren't chains, paragraphs {} characters"),
            ("CONTRIBUTING.md", "its paragraphs have {} characters"),
        ],
    ),
    ("crates/grove_page/src/serving.rt", "64 * MOST_BODY", [("docs/OPERATING.md", "64 bodies may be {} MiB")]),
    ("crates/grove_page/src/serving.rt", "1024 * MOST_BODY", [("docs/OPERATING.md", "and 1,024 of them {} GiB")]),
    ("crates/grove_page/src/query.rt", "2 ** 64 - 1", [("docs/PAGE.md", "N is a whole number up to {} in")]),
    (
        "crates/grove_log/src/reading.rt",
        "HEAD - 12",
        [
            ("docs/FORMATS.md", "its version, 1, and {} random bytes"),
            ("docs/DECISIONS.md", "with a number of {} random bytes"),
        ],
    ),
    ("crates/grove_line/src/reading.rt", "MOST_NESTED + 1", [("docs/FORMATS.md", "or values that nest {} deep")]),
    ("tests/sweeps/hostile_lines.py", "MOST_AT_ONCE", [("docs/OPERATING.md", "may cost {} MB at any time")]),
    ("tests/sweeps/hostile_lines.py", "MOST_LATER", [("docs/OPERATING.md", "and {} MB a second later")]),
    ("tools/prove", r"\bmemory_each=(\d+)000000\b", [("docs/VERIFY.md", "memory for ({} GB each")]),
    ("examples/quotas.draw.txt", r"document's plan: cost (\d+)", [("README.md", "held to the end cost {}, and")]),
    ("examples/quotas.draw.txt", r"settled plan: cost (\d+)", [("README.md", "plan below that costs {}]")]),
]
