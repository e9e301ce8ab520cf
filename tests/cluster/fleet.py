"""Workers as processes, with what they say on standard error; and what is to be told of jobs that don't end."""
from dataclasses import dataclass
from functools import partial
from pathlib import Path
from subprocess import Popen

from store_at_hand import SECONDS, UNANSWERED, await_true, moved

from grove_etcd.jobs import Progress, UnderWay
from grove_etcd.keys import Keys, last_part

# Of each worker, as many lines are told.
MOST_LINES = 8
# Of jobs that haven't ended, as many are told.
MOST_TOLD = 12


@dataclass
class Started:
    process: Popen
    errors: Path


class Fleet:
    """Each worker that its leash has killed, or that no member has answered, is started again, as a service manager
    would. So a machine that is slow, or that elects a leader for long, ends none for good."""

    def __init__(self, cluster, programs, words):
        self.cluster, self.programs, self.words = cluster, programs, [*words, "--verbose"]
        self.keys, self.members = Keys(programs.store), cluster.members()
        self.workers, self.gone = [], []

    def start(self, count):
        for _ in range(count):
            number = len(self.workers) + len(self.gone)
            errors = self.programs.room / f"{self.programs.store}-{number}.err"
            with open(errors, "w", encoding="utf-8") as file:
                self.workers.append(Started(self.programs.start("work", *self.words, stderr=file), errors))

    def kill(self, count):
        """The first ones."""
        for worker in self.workers[:count]:
            worker.process.kill()
            worker.process.wait()
        self.gone += self.workers[:count]
        del self.workers[:count]

    def end(self):
        self.kill(len(self.workers))

    def await_end(self):
        """Waits until each worker has ended by itself, for as long as jobs do anything; gives what is wrong."""
        if not await_true(self.have_ended, moved=partial(moved, self.members, self.keys)):
            return f"for {SECONDS:.0f} s nothing has happened{self.told()}"
        statuses = [worker.process.returncode for worker in self.workers]
        return f"workers ended with {statuses}{self.told()}" if any(statuses) else None

    def have_ended(self):
        self.start_again()
        return all(worker.process.poll() is not None for worker in self.workers)

    def start_again(self):
        ended = [worker for worker in self.workers if worker.process.poll() in UNANSWERED]
        self.workers = [worker for worker in self.workers if worker not in ended]
        self.gone += ended
        self.start(len(ended))

    def told(self):
        """The jobs that haven't ended, who goes on with each, what it holds and where it waits; which workers give
        signs of life, and what each one that goes on has said last."""
        found = self.members.below(f"{self.keys.store}/")
        kinds = {kind: found.below(self.keys.whole(kind)) for kind in "qujovsa"}
        holds = {}
        for key, entry in kinds["o"].items():
            holds.setdefault(entry.value, []).append(self.keys.parts(key)[1])
        counts = {name: len(kinds[kind]) for name, kind in (("fresh", "q"), ("under way", "u"), ("set aside", "a"))}
        lines = [f"jobs: {counts}"]
        names = sorted(map(last_part, kinds["u"]), key=lambda name: name not in holds)
        lines += [self.told_of(name, found, holds.get(name, [])) for name in names[:MOST_TOLD]]
        lines += [f"line {self.keys.parts(key)[1]}" for key in list(kinds["v"])[:MOST_TOLD]]
        lines += [f"sign {last_part(key)} {entry.value}" for key, entry in kinds["s"].items()]
        for worker in self.workers:
            said = worker.errors.read_text(encoding="utf-8").splitlines()
            last = " | ".join(said[:1] + said[1:][-MOST_LINES:])
            lines.append(f"{worker.errors.name}, status {worker.process.poll()}: {last}")
        return "".join(f"\n    {line}" for line in lines)

    def told_of(self, name, found, holds):
        under_way, progress = found.value(self.keys.under_way(name)), found.value(self.keys.progress(name))
        goes_on = UnderWay.read(under_way)
        now = Progress.read(progress) if progress else None
        at = f"{now.step} of {now.steps} steps" if now else "no step"
        since = f"revision {found.revision_of(self.keys.under_way(name))} of {found.revision}"
        by = goes_on.by or "nobody"
        return f"{name}: {at}, by {by} since {since}, holds {holds}, waits for {goes_on.waits}"
