"""Shared by tests/mutants and tests/callers: the reasons of the unseen mutants, and how both programs end."""

import pathlib

REASONS = pathlib.Path(__file__).resolve().parent / "unseen.tsv"


def reasons():
    """The reason of each mutant that no run sees, by its file, the text of its line, and what is changed there."""
    rows = (row.split("\t") for row in REASONS.read_text().splitlines() if row and not row.startswith("#"))
    return {(name, text, how): reason for name, text, how, reason in rows}


def told(found, known, is_all=True):
    """Prints each unseen mutant with its reason. Returns whether each unseen mutant has a reason, and no other mutant has one.

    `found` has a row for each mutant: its file, its line, the text of the line, what is changed there, and whether it was seen. A line
    may have two mutants of one description, of which a sample tries one. So a sample does not fail because of a reason too many.
    """
    keys = [((name, text, how), line, is_seen) for name, line, text, how, is_seen in found]
    unseen = {key for key, _, is_seen in keys if not is_seen}
    for key, line, is_seen in keys:
        if not is_seen:
            print(f"not seen: {key[0]}:{line}: {key[2]}: {known.get(key, 'NO REASON')}")
        elif key in known and key not in unseen:
            print(f"seen, and has a reason: {key[0]}:{line}: {key[2]}")
    needless = any(is_seen and key in known.keys() - unseen for key, _, is_seen in keys)
    return unseen <= known.keys() and not (is_all and needless)
