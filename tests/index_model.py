"""The index of a struct and the lookup in it, as bindings/c/ion.h has them, modelled in Python: `Tape.index` gives the answer and the entries
afterwards, `places` the answers of lookups.

No code is shared with our crates. tests/model.py judges a tape: its refusals 1 to 4, and not 5, which is the writers'. The offsets are those of a walk
of its own over what was accepted. An entry is (name offset, value offset), a name (0, identifier) or (1, text): Python's order of these is the
order of names, in which a proper beginning comes first.
"""
import struct

import model

NO_STRUCT, TOO_MANY_FIELDS = 11, 12
LENGTHS = {0: 2, 1: 2, 2: 9, 3: 9, 4: 14, 5: 16, 7: 5, 14: 1}


def refusal(tape):
    """1 to 4, or 0."""
    try:
        model.values(tape)
    except model.Refused as why:
        return why.args[0]
    return 0


def end(tape, at, found):
    """Where the node at an offset of an accepted tape ends. The struct nodes in it are put into `found`: the entries of each, by its offset."""
    kind = tape[at]
    if kind in LENGTHS:
        return at + LENGTHS[kind]
    if kind == 13:
        behind = at + 2
        for _ in range(tape[at + 1] + 1):
            behind = end(tape, behind, found)
        return behind
    inside = at + 5
    behind = inside + struct.unpack_from('<I', tape, at + 1)[0]
    if kind in (10, 11, 12):
        nodes = []
        while inside < behind:
            nodes.append(inside)
            inside = end(tape, inside, found)
        if kind == 12:
            found[at] = list(zip(nodes[::2], nodes[1::2]))
    return behind


def name(tape, at):
    """The name whose node is at an offset."""
    kind, number = struct.unpack_from('<BI', tape, at)
    return (0, number) if kind == 7 else (1, tape[at + 5:at + 5 + number])


def tie(entry):
    """The tie: equal names stand latest first."""
    return -entry[0]


class Tape:
    """A tape, its refusal or 0, and the entries of its struct nodes in tape order, by the structs' offsets."""

    def __init__(self, tape):
        self.tape, self.refusal, self.structs = tape, refusal(tape), {}
        at = 0
        while not self.refusal and at < len(tape) - 8:
            at = end(tape, at, self.structs)
        self.sorted = {}

    def fields(self, at):
        """The index of the struct at an offset."""
        if at not in self.sorted:
            self.sorted[at] = sorted(self.structs[at], key=lambda entry: (name(self.tape, entry[0]), tie(entry)))
        return self.sorted[at]

    def index(self, at, entries):
        """The count or minus the refusal, and the entries afterwards."""
        if self.refusal:
            return -self.refusal, entries
        if at not in self.structs:
            return -NO_STRUCT, entries
        fields = self.fields(at)
        if len(fields) > len(entries):
            return -TOO_MANY_FIELDS, entries
        return len(fields), fields + entries[len(fields):]

    def places(self, at):
        """The place of each name in the index of the struct at an offset, that of the first entry with it; every other name has none."""
        found = {}
        for place, entry in enumerate(self.fields(at)):
            found.setdefault(name(self.tape, entry[0]), place)
        return found
