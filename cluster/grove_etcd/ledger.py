"""The jobs that have begun and are in no closed epoch, with what they did, followed in the order of revisions."""
from __future__ import annotations

from typing import Iterable

from .chain import Passing
from .choosing import Chooser
from .past import Past, Taken, in_order


class Ledger:
    def __init__(self, pasts: Iterable[Past] = ()) -> None:
        self.pasts = {past.job.name: past for past in pasts}
        self.passing, self.chooser = Passing(), Chooser()
        for group in in_order(self.pasts.values()):
            self.pass_by(group)
        for past in self.pasts.values():
            if past.has_ended():
                self.chooser.end(past)

    def pass_by(self, group: Taken) -> None:
        self.passing.pass_by(group)
        self.passing.need_mark(group)
        self.chooser.pass_by(group)

    def put(self, past: Past) -> None:
        """What a job has done so far, once its last group has passed."""
        self.pasts[past.job.name] = past
        if past.has_ended():
            self.chooser.end(past)

    def close(self, names: list[str], own: Passing) -> None:
        """These are in a closed epoch now."""
        self.passing.leave(own)
        for name in names:
            del self.pasts[name]
        self.chooser.forget_nodes()
