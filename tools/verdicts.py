"""What the prover's words on a changed crate mean. The patterns below are from its answers; words that none of them fits are told as
unknown, and count for nothing until somebody has looked."""

import re

SURVIVED = "survived"
AT_A_FACT = "refused at a fact"
BOTH = "refused at a fact, and the proof no longer fits"
NO_LONGER_FITS = "refused only because the proof no longer fits"
NO_PROGRAM = "no program"
OUT_OF_TIME = "no verdict in time"
COULD_NOT_TELL = "the prover could not tell"
UNKNOWN = "refused in unknown words"

# An error that only follows from another.
FOLLOWS = (
    # A declaration cites one that was refused.
    re.compile(r"was not admitted \(it has holes or undetermined implicits, or was rejected\)"),
    # A function without a proof file calls one that was refused, or several.
    re.compile(r": no proof: (?:.*; )?it calls `[^`]*`(?: and `[^`]*`)*, which (?:is|are) not proved"),
    # The same of declarations of a proof, told together.
    re.compile(r"declarations? that depends? on `[^`]*`"),
    # A callee without a proof leaves nothing to be proved here.
    re.compile(r": no proof: the borrow checker's part in its proof is not made yet: a call of `"),
)

# The proof speaks of something that the changed code does not have, or leaves out something that it has.
MISFITS = (
    # A need, an invariant or a record of the function's `Tie` that is not there any more.
    re.compile(r"has no `[^`]*` that can be named from here"),
    # A call or a branch that the record of a place does not have.
    re.compile(r"record `[^`]*`\s+has no field `"),
    # A loop has fewer variables than the proof's invariant or measure takes.
    re.compile(r"this pattern needs a function \(or path\) type to bind"),
    # The same of a proof that is given as a function: what it takes is not there.
    re.compile(r"this λ has \d+ binders, but its type has room for"),
    # The proof gives several facts in a record where the changed code needs something of another form.
    re.compile(r"`record \{ … \}` is checked against .*\s+which is not a record type", re.DOTALL),
    # The answers to the needs are given in another order, or one is missing or too many.
    re.compile(r"expected type `tie\.Need"),
    # What is known is of another form, so that there is nothing to rewrite.
    re.compile(r"`rw`: no (?:occurrence of the path's (?:left|right) endpoint in the (?:goal|hypothesis's type)|part of the hypothesis's type)"),
)

# A statement about the changed code does not hold, or nothing proves it.
FACTS = (
    # What the proof gives and what the code needs are two types, or two values.
    re.compile(r"the two (?:types|values) (?:first )?differ"),
    re.compile(r"as far as they go, the two (?:types|values) are"),
    # The same, told at once: the two types are written out.
    re.compile(r"error: `[^`]*`: expected type `(?!tie\.)"),
    # The same, of a number that a constructor fixes.
    re.compile(r"the two indices (?:are `|first differ|differ)|this `[^`]*` lands at index `"),
    # The same at an end of an equation that is given as a function.
    re.compile(r"but the extension \(path\) type requires "),
    # An equation is known where its denial is needed.
    re.compile(r"a dimension \(`0`, `1` or an interval variable\) is expected here"),
    # What is known does not make the two sides equal.
    re.compile(r"`cc`: the equations do not join|`cc` met a bound of its own before the equations had joined"),
    re.compile(r"`(?:rw|simp)` has no last argument, so what it leaves must be a path whose two ends are equal"),
    # Two sides that were compared once all was known.
    re.compile(r"does not hold \(this comparison"),
    # An answer to a need, or the made proof of a function without a proof file.
    re.compile(r"`search`: no proof of"),
    re.compile(r"`search` does not close"),
    re.compile(r"`grind` found no proof"),
    # Arithmetic that does not follow, mostly with the numbers at which it fails.
    re.compile(r"`omega`: "),
)

# A goal that has no answer is not proved by the check itself.
UNANSWERED = (
    re.compile(r"`search` did not prove `"),
    re.compile(r"it is not proved that "),
)

# Values were found at which it is false.
FALSE = re.compile(r"allow values at which this goal is false")

# A goal has another name than its answer, as its condition names another number: that nothing proves it says nothing then.
RENAMED = re.compile(r"^help: `Goals` has no `", re.MULTILINE)

ERROR = re.compile(
    r"^(?P<file>[^\s:]+\.antt):\d+:\d+: error: |^fn \S+: no proof: |^note: \S+\.rt:\d+:\d+: it is not proved that ", re.MULTILINE
)
BLOCK_END = re.compile(r"^(?:\S+\.(?:antt|rt):\d+:\d+: |fn |note: |help: |library |crate |logic)", re.MULTILINE)
LOGIC = re.compile(r"^logic=(\S+)", re.MULTILINE)
SOURCE_ERROR = re.compile(r"^\S+\.rt:\d+:\d+: error\[.*$", re.MULTILINE)


def errors(said):
    """The errors among the prover's words, each with the lines that belong to it, and the file that has it."""
    for match in ERROR.finditer(said):
        line_end = said.find("\n", match.start())
        end = BLOCK_END.search(said, line_end + 1) if line_end >= 0 else None
        yield match.group("file"), said[match.start() : end.start() if end else len(said)]


def fits(patterns, words):
    return any(pattern.search(words) for pattern in patterns)


def kind_of(file, words, is_walk, renamed):
    """What one error says: a fact, a misfit, nothing of its own, or words that are unknown. `renamed` tells whether a goal lost its answer."""
    if fits(FOLLOWS, words):
        return None
    # A function that is walked by hand: its proof names every step of the code, so any change is refused, whatever it means.
    if file and is_walk(file):
        return NO_LONGER_FITS
    if fits(MISFITS, words):
        return NO_LONGER_FITS
    if fits(UNANSWERED, words):
        return NO_LONGER_FITS if renamed and not FALSE.search(words) else AT_A_FACT
    return AT_A_FACT if fits(FACTS, words) else UNKNOWN


def judge(status, said, is_walk):
    """The verdict on a change, and the line that decided it. `is_walk` tells of a proof file whether it walks its function by hand."""
    if status is None:
        return OUT_OF_TIME, ""
    logic = LOGIC.findall(said)
    if status == 0 and logic and logic[-1] == "proved":
        return SURVIVED, ""
    if status == 1 and SOURCE_ERROR.search(said):
        return NO_PROGRAM, SOURCE_ERROR.search(said).group()
    if status == 3:
        return COULD_NOT_TELL, last_line(said)
    renamed = RENAMED.search(said) is not None
    found = [(kind_of(file, words, is_walk, renamed), words.splitlines()[0]) for file, words in errors(said)]
    own = [(kind, line) for kind, line in found if kind is not None]
    if status != 1 or not logic or not own:
        return UNKNOWN, last_line(said)
    kinds = {kind for kind, _ in own}
    if UNKNOWN in kinds:
        return UNKNOWN, next(line for kind, line in own if kind == UNKNOWN)
    return (kinds.pop() if len(kinds) == 1 else BOTH), own[0][1]


def last_line(said):
    return (said.strip().splitlines() or [""])[-1]
