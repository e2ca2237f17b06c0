"""The steps of a plan: `tcapply --compare-steps` dumps what there is after each request, and compares it with what the model that plans are made by has then
(rust/conjareho-tools/src/plan/objects/model.rs, by crates/tc_changes). It excuses nothing."""

import collections
import re

COMPARED = re.compile(r"tcapply: compared after each of (\d+) requests")


def judge(said):
    """What is wrong with how such a run ended, "" for nothing, and counts."""
    compared = [int(it[1]) for it in map(COMPARED.fullmatch, said.lines) if it]
    nothing = any(it.startswith("tcapply: nothing to do") for it in said.lines)
    counts = collections.Counter(requests=sum(compared))
    if said.status or not compared and not nothing:
        return f"{said}", counts
    return "", counts
