#!/usr/bin/env python3
"""respell: gives this repository's own definitions and lemmas today's spelling.

    tools/respell.py        in the repository's root, once, after the toolchain's own script for older repositories

Definitions and lemmas are words in snake case; types and modules keep their capitals. Renamed are names of specs/ and
proofs/ and of the clauses that cite them, in code, in comments and between back quotes in README.md and docs/. Functions,
strings, inputs and outputs keep their names, and so do the names that the toolchain makes, of goals and their facts.
"""
import glob
import re

# Each of these becomes its words, joined by `_`.
WORDS = """
above-length absent-explains absent-fails absent-tells add-from add-in adopt-both adopt-length adopt-over
adopt-sound after-alike after-are after-cut after-from after-has again-keeps again-lifts again-tells againBuilt
agrees-behind ahead-explains ahead-fails ahead-tells all-alter all-bytes all-pairs allow-only alter-further
alter-length among-out apart-length are-bytes aside-further askAnswer at-altered at-end at-start back-explains
back-further back-lifts backTo before-sound begin-further begin-length begin-lifts behind-fail behind-height
behind-match beyond-still blank-sound blank-unmarked bodies-length bodies-read bodies-written body-only both-from
build-follows build-keeps build-lifts build-sound builtIf by-cut bytes-are checkAnswer child-grew child-sound
choice-explains choice-first choice-second choice-second-full choice-still choice-tells choose-keeps choose-lifts
close-agrees close-cut close-explains close-is close-kept close-none close-short close-stays close-still close-tells
close-whole closed-height contents-only contents-read contents-written contentsOf cut-length cutAnswer deep-decided
deep-found deepest-fits deepest-local deepest-most different-grid different-least different-most done-cut each-tree
each-written either-in either-small emptyRepeat end-cut ended-sound endingAt err-ok es-are exprs-least exprs-most
fields-front filled-all filled-length filled-most filled-turn finish-further finish-lifts first-child first-here
first-later first-pairs firstFrom firstLeftRecursive firstNullableRepeat firstTooDeep fits-inside form-accepted
form-read found-small fresh-sound from-exprs from-rules front-accepted front-both front-meant front-meant-by
front-more front-only frontOf frontVerdict greedyGrammar grew-on grid-length grow-keeps grow-lifts grow-on grow-told
halfSum hasHead head-decided headed-complete headed-sound heightOf hit-cut hit-here hit-stays in-grid in-range
inside-others inside-same inside-whole is-height is-reach is-there isHead isPart items-read keptAnswer kind-is
laid-read lawful-only laws-hold layout-only layout-read layout-written layoutTold leftRecursive link-explains
link-keeps link-law link-lifts link-more look-alike look-beyond look-cut look-has look-tells looks-ahead low-hit
low-miss made-full made-grown marks-heads marks-nullable meant-by miss-cut miss-here miss-stays most-at move-further
moveTo moved-lifts moved-tells movedBuilt name-further name-lifts neither-in nested-at nesting-most
no-left-recursion no-miss no-repeat node-keeps node-lifts node-more node-tells nodeAt not-deep not-here not-inside
nullable-complete nullable-decided nullable-sound of-cond of-err of-ok ok-is on-cut once-apart once-from once-in
one-at-fault one-is one-read oneMore onePart only-cond only-each only-err only-is only-length only-marked only-ok
only-unless onward-alike onward-cut onward-from onward-has onward-rises onward-same over-append over-grew over-high
over-length over-on over-same over-self ownBody part-completes part-lifts part-moves piece-only piece-read
piece-written pieceTold plant-below plant-both plant-moving plant-still put-aside quiet-cut range-both
range-explains range-in range-in-full range-out range-out-full range-still rangeRecord reached-whole reachedFrom
reaching-complete read-allowed read-cut read-explains read-still record-long record-only record-read record-written
recordAt recordTable records-read records-written recursion-found recursive-decided recursive-sound repeat-decided
repeat-ends repeat-full repeat-inside repeat-is repeats-found repeats-take repeatsMarked rest-match rest-short
rises-kept rises-miss rises-on round-grows row-length rs-are rule-from rule-full rule-test rule-tree ruleBody
rules-least rules-most same-cut same-grew same-on second-still sectionNumber self-grew self-same sequence-explains
sequence-fails sequence-full sequence-still sequence-tells settled-as settled-closed settled-length settled-more
settled-sound settledRecords short-deep short-whole spell-alike spell-beyond spell-cut spell-explains spell-has
spell-tells stays-kept sumGrammar table-length table-sound tag-law tagged-sound take-alike take-cut take-explains
take-rises take-stays take-still take-tells takeIn taken-alike taken-cut taken-explains taken-late taken-still
taken-tells takesNothing tells-nesting tested-sound text-beyond text-end text-long text-most text-other
text-same-full textRecord then-explains then-lifts then-tells threeAs told-as tooDeep turns-alike turns-cut
turns-explain turns-from turns-has turns-keep turns-lift turns-rises turns-tell turns-turn turnsBuilt twoParts
under-grew under-sound unless-none unmarked-le verdict-only visited-from visitedAfter visitedBackAt visitedInTurns
visitedOnward whole-over wide-front wideAt withChild work-alike work-cut work-ends
work-explains work-has work-rises work-stays work-still written-long ys-length
"""

# A lemma that would have its function's name.
LEMMAS = {
    "is-part": "is_part_lem",
    "one-part": "one_part_lem",
    "two-parts": "two_parts_lem",
    "height-of": "height_of_lem",
}

# Ghost names that stood for one with a function's name, which a clause may now cite as it is.
ALIASES = {"nullableTable": "nullables", "nestingTable": "nestings"}


def snake(name):
    return re.sub(r"([a-z0-9])([A-Z])", lambda m: m.group(1) + "_" + m.group(2).lower(), name).replace("-", "_")


NAMES = {name: snake(name) for name in WORDS.split()} | LEMMAS | ALIASES

# A name ends where a space, a bracket or a sign of punctuation stands.
TOKEN = re.compile(r"[^\s(){}\[\];:,.|&`\"λ]+")


def respell(text):
    return TOKEN.sub(lambda m: NAMES.get(m.group(0), m.group(0)), text)


def drop_aliases(text):
    return re.sub(r"\b(nullables|nestings) as \1\b", r"\1", text)


def respell_code(line):
    """A line of code, but for what stands in strings."""
    return "".join(part if i % 2 else respell(part) for i, part in enumerate(re.split(r'("(?:[^"\\]|\\.)*")', line)))


def respell_page(text):
    return re.sub(r"`[^`\n]+`", lambda m: respell(m.group(0)), text)


def change(path, how):
    with open(path, encoding="utf-8") as f:
        old = f.read()
    new = how(old)
    if new != old:
        with open(path, "w", encoding="utf-8") as f:
            f.write(new)


def main():
    for path in glob.glob("crates/*/specs/**/*.antt", recursive=True) + glob.glob("crates/*/proofs/**/*.antt", recursive=True):
        change(path, respell)
    for path in glob.glob("crates/*/src/**/*.rt", recursive=True):
        change(path, lambda text: drop_aliases("".join(map(respell_code, text.splitlines(keepends=True)))))
    for path in ["README.md"] + glob.glob("docs/*.md"):
        change(path, respell_page)


main()
