"""Brings this repository's own definitions and lemmas to the spelling of Rattle: words in snake case, types and facts in
camel case. Run once at the top, after the toolchain's port.py. It goes by text over .rt and .antt files and edits, and by
the names listed here alone, none of which stands in a string or is a function of src/. It prints a new name that a
definition, a lemma or a function has already."""

import pathlib
import re

TYPES = """
Book-of Caused-is-least First-bad First-faulty Graph-of None-between None-fits One-more Smallest-from So-far
"""

# definitions, fields and lemmas whose dashes become underscores
WORDS = """
all-caused all-links all-states ban-refused bans-of book-meaning drain-laws dynamic-law entries-refused executability-law
fault-sentence fence-meaning few-links few-states graph-meaning kind-number latch-links latch-states laws-of laws-refused link-of
link-table links-of meaning-of none-contrary open-refused part-number reason-number record-refused ring-laws sentence-of
shown-at shown-plain sizes-refused some-state state-below state-table states-of static-law step-action step-to
tables-refused twin-laws

all-caused-from all-caused-to at-shown barred-more below-from-shift bit-half bit-last bit-of-zero bit-ones bit-or-zero
bit-pow bit-pow-other bit-set-other bit-set-same bit-zero bounded-from breaks-past breaks-within can-turn caused-at-start
caused-from caused-is-least common-of common-sound common-whole contrary-by contrary-of contrary-sound contrary-whole
disjoint-sound disjoint-whole entry-bad entry-good every-has every-read false-joined faulty-here fenced-more fenced-none
from-given gather-all gather-more gather-same given-at-start good-has has-decided holds-falses holds-from holds-truths
join-has join-keeps jump-of jump-past jump-up law-more least-closed least-join least-smallest link-contained link-equal next-same
no-bad no-ban no-law no-link none-contrary-from none-contrary-to none-faulty none-join of-tables pass-closed pass-more
pass-none plain-shown ranged-from same-high search-sound search-whole silent-more smallest-like smallest-more so-far-all
step-at stray-of subset-sound subset-whole sweep-all sweep-end sweep-past sweep-to to-given truth-joined with-false
with-truth within-falses within-from within-le within-truths words-end
"""

# names that neither rule gives: a fact takes a type's spelling, a test a word's
OTHERS = {"unused-by": "UnusedBy", "has?": "lists_word"}

NAMES = {n: "".join(w[0].upper() + w[1:] for w in n.split("-")) for n in TYPES.split()}
NAMES |= {n: n.replace("-", "_") for n in WORDS.split()}
NAMES |= OTHERS

EDGE = r"[A-Za-z0-9_'?\-]"
PATTERN = re.compile(
    f"(?<!{EDGE})(" + "|".join(re.escape(n) for n in sorted(NAMES, key=len, reverse=True)) + f")(?!{EDGE})"
)

top = pathlib.Path(__file__).resolve().parent.parent
files = [p for end in ("rt", "antt", "edit") for p in top.glob(f"crates/**/*.{end}") if "out" not in p.parts]
before = {p: p.read_text() for p in files}

taken = set(re.findall(f"(?<!{EDGE})[A-Za-z]{EDGE}*", "\n".join(before.values())))
for old, new in NAMES.items():
    if new in taken:
        print(f"falls together: {old} and {new}")

for path, text in before.items():
    new = PATTERN.sub(lambda m: NAMES[m[1]], text)
    if new != text:
        path.write_text(new)
