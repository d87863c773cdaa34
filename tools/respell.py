#!/usr/bin/env python3
"""Respells the repository's own definitions and lemmas as the kit spells its own: snake case, with no capitals inside.

usage: python3 tools/respell.py        at the top of a repository that /opt/rattle/port/port.py has just turned

It turns the names listed below and no others. A dash is kept only where it joins the names of two operations, as in
length-upto. In .antt, .edit and .txt files the names are turned wherever they stand whole, but for those beside a slash,
as in a file's path; in .rt files not in strings and comments; in pages where they stand in backticks. It proves nothing.
"""

import os
import re

# names whose dashes become underscores
DASHED = """
None-before a-ahead a-stands after-either ahead-old all-below all-join-push all-joined along-elsewhere along-like
along-to and-row apart-all are-distances at-blank at-least-row at-most-refl at-most-trans begun-at begun-length
below-antisym below-meet below-refl below-trans beyond-one beyond-trans bit-none bit-one blank-sizes board-at board-of
both-fail by-drops by-hops by-statement call-done call-of came-more came-move cases-owner cell-last cell-new cell-old
cells-more chain-of climbed-all climbed-more climbing-more climbing-none column-at column-length column-like
comes-round count-step counted-like cut-more decimal-small digit-small distance-fits doubled-along doubled-least
doubled-means doubled-throughout drawn-after drawn-report drops-laws each-push earlier-least early-on end-inside
entry-checks entry-holds entry-passed entry-refusal escape-is escape-least escape-row escape-rows escaped-below
escaped-to exact-at exactness-checks extended-grows extended-rises extended-small falls-short far-end far-other
far-small far-to field-kept fields-cut fields-more filled-one first-at fits-limited floor-old found-shortest
free-widest from-0 from-1 from-2 gathers-least gets-away give-answers give-none give-pool has-cell has-interval
held-ceiling held-floor high-level hold-of hops-laws in-interval in-keep in-plan in-upto inexact-end inexact-next
inside-along inside-join inside-judge inside-least inside-meet inside-narrow inside-neg inside-throughout
inside-widest inside-within integer-said is-exact is-full is-range is-sealed is-widest job-text join-absorb join-assoc
join-comm join-least join-left join-mono join-right joined-above joined-all joined-front joined-mem joined-more
joined-push joined-up keep-length keep-shorter kept-after kept-changed kept-first kept-none kind-report known-case
last-exit later-least least-high least-left least-like least-low least-right least-unique leaves-out leaves-some
left-of lengths-laws level-more level-rises lies-high lies-low lies-yes limited-set limits-step line-done linear-laws
linked-more links-more links-of long-way loop-turn low-level lows-at lows-fit made-back made-least made-map made-meet
margin-laws margin-text margin-zero means-like means-unique meet-absorb meet-assoc meet-below-right meet-mono
meet-swap met-cell more-words most-at most-push most-work moved-room names-channel narrow-all narrows-step
natural-said near-level nearer-either nearer-left nearer-right nearest-more nearest-most nearest-twice needed-same
neg-anti never-returned new-sizes next-line next-new next-old next-step node-same none-of-4 not-inside not-row
not-sealed nothing-beyond nothing-filled nothing-later number-upper old-less on-board one-proof one-read one-sheet
onward-more opened-stage or-row origin-small over-space-like passed-more passes-both passes-last passes-more
passes-one passing-more passing-none pipe-checks pipe-refusal place-drawn place-line place-text place-turn places-like
places-text plain-upper plan-of prepared-like pushed-all pushed-lift pushed-one ranges-after ranges-changed
ranges-limited ranges-of ranges-push ranges-set reach-is reach-least reach-row reach-rows reached-by reaches-by
reaches-none refusal-in refusal-of refusal-text refused-report relaxes-all relaxes-none relaxes-one relaxes-standing
routes-to row-checks row-pair row-refusal row-window rows-below run-append run-counts run-keeps run-narrows run-plan
run-still same-cell same-margin same-plan says-like sealed-stage sealing-checks sealing-refusal sheet-at sheet-came
sheet-checks sheet-refusal sheet-report sheet-text shortest-same since-row size-at size-checks size-refusal space-read
span-laws span-ops span-text spans-at spans-narrow stands-so stands-yes step-turn steps-like steps-text still-found
still-long still-step sure-yes survey-of table-cells table-limits take-answers take-pool take-room taken-by taken-fits
taken-interval taken-named taken-refers tall-cap tally-more tally-none tally-push tally-set the-next throughout-like
token-field told-range top-meet two-pipes under-hold unknown-row unless-refused until-row upper-said used-blank
used-set used-set-le value-means walked-over widest-in-gap widest-is window-above window-least windowed-like
with-entry with-pipe with-short-cut within-most within-refl within-row within-rows within-trans within-upto words-cut
work-for work-of yes-row yesno-laws yesno-text ≤ℤ-trans
""".split()

# names that take another spelling than that
OTHERS = {
    "None-before": "none_before",
    "refusalOf": "refusal_of",
    "atDraft": "at_draft",
    "atSurvey": "at_survey",
    "atBlank": "at_blank",
    "allDigits": "all_digits",
    "nearerOf": "nearer_of",
    "measureOf": "measure_of",
    "distancesTo": "distances_to",
    "belongsTo": "belongs_to",
}

NAMES = {n: n.replace("-", "_") for n in DASHED}
NAMES.update(OTHERS)

# what may stand in a name, so that only whole names are turned
PART = r"[^\s(){}.,;:`\"|\[\]]"
WORD = re.compile(r"(?<!" + PART + r")(?:" + "|".join(sorted(map(re.escape, NAMES), key=len, reverse=True)) + r")(?!" + PART + r")")


def turned(text):
    return WORD.sub(lambda m: NAMES[m.group(0)], text)


def turned_code(line):
    """A line of a .rt file: its strings and its comment stay."""
    out, rest = "", line
    while rest:
        m = re.search(r'"(?:[^"\\]|\\.)*"|//', rest)
        if m is None:
            return out + turned(rest)
        out += turned(rest[: m.start()])
        if m.group(0) == "//":
            return out + rest[m.start() :]
        out += m.group(0)
        rest = rest[m.end() :]
    return out


def turned_page(text):
    return re.sub(r"`[^`\n]+`", lambda m: turned(m.group(0)), text)


def files():
    for folder, dirs, names in os.walk("."):
        dirs[:] = sorted(d for d in dirs if d not in (".git", "out", "target", "tools"))
        for name in sorted(names):
            yield os.path.join(folder, name)


def main():
    count = 0
    for path in files():
        if path.endswith((".antt", ".edit", ".txt")) and path != "./crates.txt":
            turn = turned
        elif path.endswith(".rt"):
            turn = lambda text: "".join(map(turned_code, text.splitlines(keepends=True)))
        elif path.endswith(".md"):
            turn = turned_page
        else:
            continue
        with open(path, encoding="utf-8") as f:
            old = f.read()
        new = turn(old)
        if new != old:
            count += 1
            with open(path, "w", encoding="utf-8") as f:
                f.write(new)
    print(f"respell: {count} files")


main()
