#!/usr/bin/env python3
"""Respells this repository's own definitions and lemmas as today's Rattle writes names: words in snake case, types and
facts in camel case. Run once, at the top, after the kit's own script; it goes over specs/, proofs/, src/ and the
must-fail edits of specs/. Strings and comments keep their text, and no function of src/ has a name of these lists.
"""

import os
import re

# Types, and facts that are types.
CAMEL = """
Conserves-in-both Cut-laws Ended-before Equal-sums Falls-into In-order In-place Memberships-of Settlement-laws
Takes-effect
""".split()

# All else: definitions, fields and lemmas.
SNAKE = """
adds-up after-it all-over amountsOf answer-next any-drop any-set-by before-day before-it changes-on cond-le
cond-zero conserves-more conserves-none conserves-rows corrected-above corrected-answer corrected-le corrected-to
corrected-within counted-after cut-adds-up cut-grown cut-grows cut-laws cut-next cut-none cutUpTo day-after day-faults
day-of div-step draw-sum-limit draw-whole drawSettled drawn-is drawn-le draws-next dynamic-law effect-after empty-rows
end-follows ended-first ended-push endedRows entitledRow entitlement-next entitlements-le equal-sums exact-next fed-next
feed-is feed-le feed-whole feedRemaining feedSettled feeds-at first-share free-place from-index generation-limit
halfAmounts halfShares history-append history-from ifAccepted ifMember in-effect in-it last-day lasts-by lawful-most
lawful-push leftByLower leftIn leftWith lower-feed lower-first lower-second lower-third lowerMembers lowerShares
membersBy memberships-of most-below most-entries most-share nearest-is noSums none-back none-from-test not-above
not-below not-less or-none or-true or-zero order-after ordered-from ordered-push over-more over-now over-since
overfullAmounts overfullRows overfullShares part-is part-le part-next part-not-less part-not-more place-faults
profile-day promise-grown promised-next promisedUpTo quarter-hours quarter-hours-is quarter-hours-mono
quarter-hours-more quarter-hours-none reading-limit remainders-add remaining-within remainingRow rounded-next row-after
rows-after same-range second-share set-by set-most settled-all settled-drawing settled-feeding settled-within settledRow
settlement-laws share-answer share-before share-drop share-found share-history share-most share-none share-of share-on
share-set share-sum-limit shareIn shares-next shares-on some-cond standing-from standing-from-push stands-push
stands-take start-again start-refused-with start-too-early starts-later static-law sum-next sum-none sum-plus sum-sub
sum-under sum-zero summed-equal sums-are sums-grow sumsUpTo surplus-before surplus-next takes-effect third-share
total-answer two-communities upTo-all upTo-grows upTo-none upper-high-feed upper-low-feed upper-second upperMembers
upperShares used-is when-not whole-after whole-cut whole-days whole-days-held whole-days-is whole-days-le whole-place
whole-share with-entry within-weight
""".split()

# Lemmas that would fall together with the definition that they are about.
OTHER = {
    "remaining-row": "remaining_row_lem",
    "lower-members": "lower_members_lem",
    "upper-members": "upper_members_lem",
}


def snake(name):
    return re.sub(r"([a-z])([A-Z])", lambda m: m.group(1) + "_" + m.group(2).lower(), name).replace("-", "_")


def camel(name):
    return "".join(part[0].upper() + part[1:] for part in name.split("-"))


NAMES = {n: snake(n) for n in SNAKE} | {n: camel(n) for n in CAMEL} | OTHER

# A name is bounded by what no name of antt's has in it.
WORD = re.compile(r"(?<![\w'\-])(?:" + "|".join(re.escape(n) for n in sorted(NAMES, key=len, reverse=True)) + r")(?![\w'\-])")


def respelled(text, comment):
    lines = []
    for line in text.split("\n"):
        code, mark, rest = line.partition(comment)
        parts = re.split(r'("[^"]*")', code)
        code = "".join(p if i % 2 else WORD.sub(lambda m: NAMES[m.group()], p) for i, p in enumerate(parts))
        lines.append(code + mark + rest)
    return "\n".join(lines)


def main():
    taken = set(NAMES.values())
    assert len(taken) == len(NAMES), "two names fall together"
    for folder, dirs, files in os.walk("crates"):
        dirs[:] = sorted(d for d in dirs if d != "out")
        for name in sorted(files):
            comment = {".antt": "-- ", ".rt": "//", ".edit": "\0"}.get(os.path.splitext(name)[1])
            if comment is None:
                continue
            path = os.path.join(folder, name)
            with open(path, encoding="utf-8") as f:
                old = f.read()
            if name.endswith(".edit") and "file: specs/" not in old:
                continue
            new = respelled(old, comment)
            if new != old:
                with open(path, "w", encoding="utf-8") as f:
                    f.write(new)


main()
