#!/usr/bin/env python3
"""Turns the repository's own names in definitions, lemmas, clauses and docs to today's spelling.

usage: python3 tools/respell.py        at the top of the repository, once, right after the kit's port.py

Functions, lemmas and fields get snake case, types and statements camel case; six lemmas whose names join a word of the library
and another name keep the dash between them, as the library does. Names that Rattle makes of the code (loops, returns, calls)
are left alone, but for `at-before`, which was turned by mistake and then turned back by hand. Fourteen clauses that bound their result by a lambda, since a definition had the name `result`, say
`result` now, and that definition is called `result_of`. Fifteen of the new names are the very name of some function of
src/, and none is that of another definition: `--look` lists them, and changes nothing.
"""

import glob
import re
import sys

# What the rule alone would not give.
OWN = {
    "getD-table": "get_or-table",
    "get_d_rows": "get_or-rows",
    "getD-replicate-same": "get_or-replicate_same",
    "length-table": "length-table",
    "length-rows": "length-rows",
    "length-raised": "length-raised",
    # a lemma does not get the name of the function that it is proved for
    "entries-stay": "entries_stay_lem",
    "games-give-a-point": "games_give_a_point_lem",
    "removal-empties": "removal_empties_lem",
    "sides-share-points": "sides_share_points_lem",
    # a console or hall of the tables; `console_of` is the console of a transaction
    "console-of": "console_at",
    "hall-of": "hall_at",
}

NAMES = """
All-fair Apart-pass At-board At-entry Entries-stay Fair-ask Games-give-a-point Kept-lines Kept-plain Kept-sheet
One-drawn-board Points-stay-else Removal-empties Sheet-lines Sides-share-points Three-lines Worked-examples Worked-stamps
admitted-same after-closing after-round against-few all-at all-below all-blank answer-same answered-shaped
apart-disjoint apart-from-all apart-pass apart-sym ask-fair asked-chief asked-close asked-line asked-read asked-score
asked-seat asked-write at-before at-board at-hall at-line at-time at-total below-not-own below-zero black-few
black-points board-again board-from board-key board-numbers board-points board-same board-within boards-wide
bridge-lawful bridge-model bridge-parted bridge-sheets by-deputy cause-not-0 cause-not-zero changed-fair
changed-leaves changed-same changed-totals chess-lawful chess-model chess-parted chess-sheets chief-line chief-token
class-number clock-keeps clock-step close-kind closed-points console-of deal-key deal-numbers deal-points deal-same
deal-wide deals-wide dealt-same digits-all disjoint-below disjoint-bits disjoint-sym done-with draft-of drop-front
drop-step east-west east-west-5 east-west-6 east-west-7 east-west-at east-west-few elsewhere-at enter-says
entries-stay entry-hall entry-line entry-transaction event-by event-of fault-at fault-changes fault-leaves
fault-not-ok fault-number few-sent find-answer finished-at first-heading first-here first-in first-later first-line
first-none first-page first-tokens fit-class for-player front-all front-more full-below gain-at gain-few gained-few
game-line game-same games-give-a-point hall-is hall-line hall-of hall-tokens hall-too-late hall-zeros has-pair
held-entry held-grant held-left held-once held-read held-right held-write in-turn is-close is-enter is-player is-score
is-seat is-total issue-step kept-after kept-blank kept-changed kept-entries kept-lines kept-plain key-low keys-needed
lacks-room left-fair left-same left-totals length-hall length-in line-again line-from line-numbers line-says line-wide
line-within lines-first lines-share mode-at modes-stay names-party natural-part new-consoles new-game new-hall
new-halls next-in next-round next-stamp no-console no-deal no-game no-games no-games-fair no-games-sized no-grant
no-hall no-heading-left no-here no-lines-sized no-lines-wide no-match-points no-message no-operation no-points
no-sheet no-such-word nobody-else north-south-0 north-south-1 north-south-2 not-all-at not-before-the-result
not-one-alone not-twice not-zero of-board of-roll one-back one-drawn-board opened-for or-one outcome-again own-page
page-of pages-after pages-by part-board part-deal parted-lawful party-number past-limit played-on player-range
points-few points-from points-in-all points-stay-else progress-after progress-by put-here put-leaves put-others
read-after read-board read-deal read-line read-says read-write reader-by refusal-number removal-below removal-empties
removal-reads removal-writes reply-lawful request-lawful requests-below requests-is result-number roll-keys
roll-lawful roll-model roll-sheets round-after same-page same-sheet same-state says-shaped score-key score-key-low
score-says score-within seat-fair seat-says seated-at second-line sends-count sent-count sets-push sheet-lines
sheet-model sheet-of sides-share-points sized-after sized-blank sized-changed sized-left sized-own sized-read
small-changed small-left small-raised small-read small-zeros some-none stamp-number standings-more standings-no
standings-none standings-to standings-yes status-number status-of sum-add sum-none sum-swap sum-times sum-without
sum-zero table-all take-front third-line three-lines to-hall told-roll told-sheet told-table too-low took-part
total-kind total-operation totals-same transaction-of turned-roll turned-sheet turned-table used-at vote-lawful
was-closable well-done white-few white-points with-bearer with-board with-chief with-console with-consoles with-count
with-deal with-game with-hall with-halls with-line with-post with-result with-result-fair within-is won-few write-at
write-chief write-kind writer-by yes-here
""".split()

WORD = re.compile(r"[A-Za-z_][A-Za-z0-9_'₀-₉ℕℤ]*(?:-[A-Za-z0-9_'₀-₉ℕℤ]+)*")


def spelled(name):
    if name in OWN:
        return OWN[name]
    if name[0].isupper():
        return "".join(part[0].upper() + part[1:] for part in name.split("-"))
    return name.replace("-", "_")


TURN = {name: spelled(name) for name in NAMES + list(OWN)}


def words(text):
    return WORD.sub(lambda m: TURN.get(m.group(0), m.group(0)), text)


def lines_of(text, comment):
    return "\n".join(line if line.lstrip().startswith(comment) else words(line) for line in text.split("\n"))


# `ensures* { λ r. ⌜ r ≡ x ⌝ }` is `ensures { result ≡ x }`
BOUND = re.compile(r"ensures\*( \w+)? \{ λ r\. ⌜ (.*) ⌝ \}")


def with_result(text):
    def clause(m):
        return "ensures" + (m.group(1) or "") + " { " + re.sub(r"(?<![\w.'-])r(?![\w'-])", "result", m.group(2)) + " }"

    return BOUND.sub(clause, text)


def result_of(path, text):
    """The definition of entries that has the name of a function's result."""
    if path == "crates/entries/specs/Fields.antt":
        text = text.replace("abbrev pub result : ", "abbrev pub result_of : ").replace("\nresult word =\n", "\nresult_of word =\n")
        return text.replace("value Score word = result word", "value Score word = result_of word")
    if path == "crates/entries/src/fields.rt":
        return text.replace("{number, whole, result, game}", "{number, whole, result_of, game}").replace("r ≡ result word.now", "r ≡ result_of word.now")
    return text


def main():
    sources = sorted(p for end in ("rt", "antt") for p in glob.glob(f"crates/**/*.{end}", recursive=True) if "/out/" not in p)
    pages = ["README.md"] + sorted(glob.glob("docs/*.md"))
    found = set()
    for path in sources:
        with open(path, encoding="utf-8") as file:
            found |= set(WORD.findall(file.read()))
    missing = [name for name in TURN if name not in found]
    meet = [f"{name} and {new}" for name, new in TURN.items() if name != new and new in found]
    if "--look" in sys.argv:
        print("not there:", missing, "\nfall together:", meet)
        return 0
    if missing:
        print("respell: nothing changed; not there:", ", ".join(missing))
        return 1
    for path in sources:
        with open(path, encoding="utf-8") as file:
            old = file.read()
        new = result_of(path, old)
        new = lines_of(with_result(new), "//") if path.endswith(".rt") else lines_of(new, "--")
        if new != old:
            with open(path, "w", encoding="utf-8") as file:
                file.write(new)
    for path in pages:
        with open(path, encoding="utf-8") as file:
            old = file.read()
        new = re.sub(r"`[^`\n]*`", lambda m: words(m.group(0)), old)
        if new != old:
            with open(path, "w", encoding="utf-8") as file:
                file.write(new)
    return 0


if __name__ == "__main__":
    raise SystemExit(main())
