#!/usr/bin/env python3
"""Every must-fail edit has a twin (tests/twins.py): the source, or a twin file of the edit's own form. The twin files of crates that are
proved in seconds are proved here. That the rule tells values from form is shown on texts of each kind, and that a twin which is not
right is refused on an edit itself."""
import sys

import twins

# two texts, and whether they have the same form
FORMS = [
    ("cond (leb l 1) x", "cond (leb l 0) x", True),
    ("leb (n / header) l", "leb (n / 4) l", True),
    ("(a * 256 + b) * 256 + c", "(c * 256 + b) * 256 + a", True),
    ("(session_at s n).attached", "(session_at s n).scanned", True),
    ("unmarked s.sessions", "mathlib.Core.id s.sessions", True),
    ("leb (x.charge + n) x.share", "leb (x.level + n) x.share", True),
    ("(1..=3).contains(&l)", "(1..=1).contains(&l)", True),
    ("f (mathlib.Core.List.reverse xs)", "f (Rattle.std.specs.Prelude.take xs)", True),
    ("leb x.charge n", "leb charge n", False),
    ("if (1 <= l) & (l <= 3) {", "if (1 <= l) & (l <= 3) & (l != 2) {", False),
    ("if (1 <= l) & (l <= 3) {", "if (1 <= l) & (l < 3) {", False),
    ("(1..=3).contains(&l)", "(1..3).contains(&l)", False),
    ("cond (move_on s) s", "cond (move_on s) (move_on s)", False),
    ("f (g x) y", "f g (x y)", False),
    ("p (to z) q", "p (z.from) q", False),
    ("not x && y", "not x || y", False),
    ("if x { y }", "while x { y }", False),
]


def check_refused():
    """An edit, taken for its own twin, must not be proved."""
    crate, name = next((crate, name) for crate, name in twins.edits(twins.QUICK) if twins.twin_of(crate, name))
    try:
        twins.prove(crate, twins.read(twins.edit_path(crate, name)))
    except twins.Bad as bad:
        print(f"test_twins: the edit {crate}/{name} in its twin's place: {bad}")
    else:
        sys.exit(f"test_twins: the edit {crate}/{name} is proved in its twin's place")


def main():
    for a, b, same in FORMS:
        if twins.same_form({"": a}, {"": b}) != same:
            sys.exit(f"test_twins: '{a}' and '{b}' have {'another' if same else 'the same'} form")
    check_refused()
    passed, failed, proofs = twins.look(proved=twins.QUICK)
    print(f"test_twins: {passed} edits with a twin, {failed} without; {proofs} twin files proved")
    if failed or not passed or not proofs:
        sys.exit(1)


if __name__ == "__main__":
    main()
