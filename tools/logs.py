"""What the prover's log says of a must-fail edit: whether it is refused because a proof no longer goes through.

A refusal shows that and no more: the prover cannot tell a false fact from one that needs another proof. Whether an edit changes an answer
is for tools/confirm-edits to say."""
import re

# How the first error of a log begins, and the name of the declaration that it refuses. An error with no such name says
# that a text cannot be read, or that a file or a name is not there.
ERROR = re.compile(r"(?!note: )(?:[^`]*?: )?error(?:\[[\w-]+\])?: (?:`([^`]+)`: )?")
# Declarations that hold no proof: an error there says that a statement makes no sense, not that it is false.
STATEMENT = ("Inv-", "μ-", "requires-", "ensures-", "invariant-", "measure-", "inv_", "measure_")
# What is quoted, and terms and types written out, in which any word may stand.
QUOTED = re.compile(r"`[^`]*`")
# Errors of a text that does not parse, or that speaks of a name, a goal, a field or an argument that is not there.
MISFIT = re.compile(
    r"can be named from here|not in scope|is no name|has no name|no constructor |not a constructor|operand is missing|operators of one level"
    r"|expected the end|cannot continue|has no field|has no $|projects from a record|not a record type|needs a function"
    r"|applied to an argument but|does not define it")
# Errors of a proof that answers another goal, or that speaks of another point of the code than the one it stands for.
ELSEWHERE = re.compile(r"but this has type `(?:[\w.]*\bNeed-|goal\.|[^`\s]*\.Goals\.|[^`\s]*\.Lts\.(?:After|Else|Then)\b)")
# An error that follows from another: a declaration that was not admitted, or those that depend on it.
FOLLOWS = re.compile(r"[^`]*`[^`]+`: `[^`]+` was not admitted|[^`]*error: \d+ declarations? that depends? on ")
# A limit that is the prover's own, which it meets without a verdict on the fact.
LIMIT = re.compile(r"antt ran out of |outgrew the memory limit|stopped at the step limit")
# How the reason begins where only a name or a form is at fault.
BY_SHAPE = "refused only for its shape: "
PROVED = re.compile(r"^logic=proved ", re.M)
NOT_PROVED = re.compile(r"^logic=not-proved", re.M)
# A function whose goals no file answers, and which are open: the prover searched for their proofs itself.
SEARCHED = re.compile(r"\w+ .*: no proof: .*`search` did not prove ")
SEARCHED_FOR = re.compile(r"\w+ (\S+): no proof: .*?`search` did not prove `([^`]+)`")
# The verdict on one function or type that is not proved, and its ending where that is the fault of another that it calls.
UNPROVED = re.compile(r"\w+ (\S+): (?:not proved|no proof)")
BY_ANOTHER = re.compile(r"[:;] it calls `")
# Where an error stands that is in a function's own proof: the function's modules and name; a + marks a recursive function.
PLACE = re.compile(r"(?:\./)?proofs/([^`:]+)/[^`/:]+\.antt:\d+:\d+: ")


def entries_of(log):
    """The entries of a log, a line each: the prover goes on in indented lines, also in the middle of a sentence, behind a long name."""
    return [re.sub(r"\n\s+", " ", entry) for entry in re.split(r"\n(?!  )", log)]


def errors_of(entries):
    """The errors that follow from no other."""
    return [entry for entry in entries if ERROR.match(entry) and not FOLLOWS.match(entry)]


def judge(log):
    """Why the log of a must-fail edit does not show that the proof of a fact fails: a reason, or None where it shows that."""
    if PROVED.search(log):
        return "NOT REFUSED: the crate is still proved with this edit"
    if not NOT_PROVED.search(log):
        return "it did not reach the prover"
    entries = entries_of(log)
    errors = errors_of(entries)
    if not errors:
        searched = any(SEARCHED.match(entry) for entry in entries)
        return None if searched else "refused, and the log names no fact whose proof fails"
    first = errors[0]
    name = ERROR.match(first)[1]
    if LIMIT.search(QUOTED.sub("", first)):
        return "refused only by a limit of the prover: " + first[:240]
    if name and not name.startswith(STATEMENT) and not MISFIT.search(QUOTED.sub("", first)[:400]) and not ELSEWHERE.search(first):
        return None
    return BY_SHAPE + first.removeprefix("./")[:240]


def fact_in(log, function=None):
    """What a log of a refused edit says first of a fact whose proof fails: the name of a law, an answer or a goal. Of several edits that were
    tried together, what it says in the proof of this function."""
    entries = entries_of(log)
    crate = function and function.split("::")[0]
    for entry in errors_of(entries):
        name = ERROR.match(entry)[1]
        if name and (function is None or function_of(entry, crate) == function):
            return name
    for entry in entries:
        found = SEARCHED_FOR.match(entry)
        if found and (function is None or found[1] == function):
            return found[2]
    return None


# ---- the log of several edits that were tried together

def function_of(entry, crate):
    """The function in whose proof an error stands, as the prover names it; for an error elsewhere a name that no function has, or None."""
    place = PLACE.match(entry)
    return place and "::".join([crate, *place[1].replace("/+", "/").removeprefix("+").split("/")])


def refused_each(log, functions):
    """Those of a crate's functions, whose bodies were changed together, that the log shows to be refused each for itself: it is not proved,
    and the first error in its own proof is that of a fact. No function, where anything is at fault that was not changed."""
    crate = next(iter(functions)).split("::")[0]
    entries = entries_of(log)
    verdicts = {found[1]: entry for entry in entries if (found := UNPROVED.match(entry))}
    faults = [(name, entry) for name, entry in verdicts.items() if not BY_ANOTHER.search(entry)]
    errors = [(function_of(entry, crate), entry) for entry in errors_of(entries)]
    if not NOT_PROVED.search(log) or not functions >= {name for name, _ in errors + faults}:
        return set()
    own = {name: [entry for other, entry in errors + faults if other == name] for name in verdicts}
    return {name for name in functions & verdicts.keys() if judge("\n".join([*own[name], "logic=not-proved"])) is None}
