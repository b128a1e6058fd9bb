"""Demand 3 of document 01, with no journal: the standing edits, worked out from the first code and the calls.

After every call the code is the first code with the standing edits made in order.
"""
from model import HUGE, MOST, ROWS, bundle_at, is_retired, other_form, row_of, taken


def made(data, edit):
    """Sixteen bytes with an edit made; what a fold left sets them all."""
    _, slot, form, value = edit
    return value if form == "-" else bundle_at(data, 0).with_value(slot, ROWS[form], value)


class Standing:
    """The edits that stand, for which there are so many places. The records of the first `whole` of them don't tell them: an old sheet of
    them was loaded, or a fold left them."""

    def __init__(self, code, places):
        self.first, self.code, self.edits, self.whole, self.places = bytes(code), bytearray(code), [], 0, places

    def acceptable(self, checked, n, slot, family, form, kind, value):
        """Whether the code as it stands takes the edit, or the checked edit."""
        bundle, row = bundle_at(self.code, n), row_of(family, form)
        if not (len(self.code) <= MOST and bundle and row and kind == row.kind() and taken(bundle, slot, chr(family), row, value)):
            return False
        return not is_retired(family, form) and not (checked and other_form(bundle, slot, family, form))

    def edit(self, *edit):
        if not self.acceptable(*edit) or len(self.edits) == self.places:
            return False
        _, n, slot, family, form, _, value = edit
        self.make((n, slot, f"{chr(family)}{form}", value))
        return True

    def make(self, edit):
        """An edit stands, of a form that is retired or isn't."""
        n = edit[0]
        self.edits.append(edit)
        self.code[16 * n:16 * n + 16] = made(self.code[16 * n:16 * n + 16], edit)

    def undo(self):
        if not self.edits:
            return False
        self.remake(self.edits.pop()[0])
        self.whole = min(self.whole, len(self.edits))
        return True

    def fold(self):
        """In place of all that stand, for each bundle that they touch, in order of first touch: it is set to what it now is."""
        touched = dict.fromkeys(n for n, _, _, _ in self.edits)
        self.edits = [(n, 0, "-", bytes(self.code[16 * n:16 * n + 16])) for n in touched]
        self.whole = len(touched)
        return True

    def told(self):
        """What the records tell: bundle, slot, form and value's pattern of each edit."""
        whole = [(n, 0, "-", 0) for n, _, _, _ in self.edits[:self.whole]]
        return whole + [(n, slot, form, value % HUGE) for n, slot, form, value in self.edits[self.whole:]]

    def remake(self, n):
        data = self.first[16 * n:16 * n + 16]
        for edit in self.edits:
            if edit[0] == n:
                data = made(data, edit)
        self.code[16 * n:16 * n + 16] = data
