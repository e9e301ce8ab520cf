"""The value of `m/PATH`: a node's weight, the reweighing that made it, and the record that was loaded."""
from __future__ import annotations

from dataclasses import dataclass

from .refusals import NoForm


@dataclass(frozen=True)
class Weight:
    weight: int
    made_by: int
    loaded: int

    @staticmethod
    def read(text: str) -> Weight:
        try:
            weight, made_by, loaded = map(int, text.split())
        except ValueError as why:
            raise NoForm("Weight", text) from why
        return Weight(weight, made_by, loaded)

    def at(self, reweighing: int) -> int:
        """The weight since that reweighing. Those that it wasn't waited for in have halved it (docs/PROTOCOL.md)."""
        return 1 + ((self.weight - 1) >> max(0, reweighing - self.made_by))

    def text(self) -> str:
        return f"{self.weight} {self.made_by} {self.loaded}"
