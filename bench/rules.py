#!/usr/bin/env python3
"""Looks where the definitions tell rules 1 and 2 apart.

Usage: bench/rules.py

`first_rules_stay` (crates/definitions/src/laws.rt) says what rules 1 give wherever rules decide something.
This lists each definition of crates/definitions/specs that names rules 1 or 2, with the clause of that law
that speaks of it, or why none has to. All other definitions only hand rules on. The status is 1 where a
definition names them that isn't in the list, or one of the list doesn't any more.
"""
import glob
import os
import re
import sys

from lib import TOP

RUN = {
    "tier": "quick",
    "shows": "the definitions tell the rules' versions apart in the listed places alone, each "
             "with its law",
    "words": [""],
    "minutes": 0.01,
}
PLACES = {
    "Allotment.ranks_before": "lots",
    "Changes.rules_put": "put",
    "Elements.quantity_digits": "limits",
    "Elements.advice_total_digits": "limits",
    "Elements.order_total_digits": "limits",
    "Elements.lot_rows": "elements; undated and faults say what comes of it",
    "Limits.most_lines": "limits",
    "Limits.most_quantity": "limits",
    "Reports.dated": "shown",
    "Schema.later_schemas": "schemas",
    "Tables.later_tables": "tables",
    "Rules.rules_number": "tables: the number in `book` is 1",
    "Rules.may_follow": "none: which rules an entry may have after others",
    "Accepted.IsLegal": "none: a register begins with entries of rules 1",
    "Carried.with_version": "none: what carrying a book over writes",
    "Carried.first_rules_row": "none: what carrying a book over writes",
    "Readings.first_act": "none: how a recorded act of an entry is read (acts_are_read_by_their_rules)",
    "Schema.schema_named": "none: the tables of version 2 are those of version 1 and two more",
    "Tables.rules_in": "none: reads a row of `entry_rules`",
    "Tables.register_in": "none: entries without such a row have rules 1",
    "First.HasFirstLimits": "the law's own words",
}


def named(path):
    """The definitions of a file that name rules 1 or 2."""
    with open(path, encoding="utf-8") as file:
        lines = file.read().splitlines()
    if not any(re.match(r"use Rattle\.definitions\.specs\.declared\.rules\.Rules\.TheVariants\.", line) for line in lines):
        return
    module, one = os.path.basename(path)[:-len(".antt")], None
    for line in lines:
        begin = re.match(r"(?:unfoldable |abbrev )*(?:pub )?(?:record )?([A-Za-z_]+)", line)
        if line.startswith(("use ", "--")):
            continue
        if begin:
            one = begin.group(1)
        if re.search(r"\b(One|Two)\b", line.partition("--")[0]):
            yield f"{module}.{one}"


def main():
    found = sorted({name for path in glob.glob(os.path.join(TOP, "crates", "definitions", "specs", "*.antt")) for name in named(path)})
    for name in found:
        print(f"{name}: {PLACES.get(name, 'not in the list')}")
    wrong = set(found) ^ set(PLACES)
    for name in sorted(wrong - set(found)):
        print(f"{name}: names them no more")
    print(f"{len(found)} definitions name rules 1 or 2, {len(wrong)} otherwise than listed")
    return 1 if wrong else 0


if __name__ == "__main__":
    sys.exit(main())
