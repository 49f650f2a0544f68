"""The calls that scripts have, of extras/calls.json: the kinds of their fields, and which stand behind the line `serial` alone."""
from __future__ import annotations

import json
from dataclasses import dataclass
from pathlib import Path

LIST = Path(__file__).resolve().parents[2] / "extras/calls.json"


@dataclass(frozen=True)
class Form:
    """A call: the kinds of its fields in the order of a line, and whether it stands behind the line `serial` alone."""
    kinds: tuple[str, ...]
    is_serial: bool

    def place(self, *kinds: str) -> int | None:
        """Which word behind the call's own is the first of these kinds."""
        return next((at for at, kind in enumerate(self.kinds, 1) if kind in kinds), None)


def places(*kinds: str) -> dict[str, int]:
    """For each call with a field of one of these kinds the place of its word."""
    return {word: place for word, form in FORMS.items() if (place := form.place(*kinds)) is not None}


FORMS = {row["word"]: Form(tuple(field["kind"] for field in row["fields"]), row["serial"])
         for row in json.loads(LIST.read_text(encoding="utf-8"))}
WITHOUT_DESCRIPTOR = {word for word, form in FORMS.items() if form.kinds[:1] != ("Fd",)}
BEHIND_SERIAL = {word for word, form in FORMS.items() if form.is_serial}
ADDRESS_PLACE = places("Addr", "Target")
PATH_PLACE = places("Path")
BYTES_PLACE = places("Bytes")
