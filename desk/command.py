"""The command line: what the words mean, what is done, and how it ends."""
from desk.breaking import delay_of
from desk.drawing import as_diagram
from desk.handing import as_csv, as_json, as_page
from desk.help import HELP, USAGE
from desk.revision import edition
from desk.rewriting import as_plan, as_rows, fixed, in_rows
from desk.several import listed
from desk.show import visible
from desk.streams import Answer, complain, deliver
from desk.studies import Options
from desk.telling import shown
from desk.trouble import Trouble

HANDING = {"--html": as_page, "--json": as_json, "--csv": as_csv}
PRINTING = {"--exact", "--units", "--why", "--order", "--confirm", "--strict"}
SEVERAL = {"--exact", "--strict"}
WRITING = {"--exact", "--strict", "--force", "--breaking", "--confirm"}
# By the option that says what is done: the options that may stand beside it, and how many names there may be.
FORMS = {
    "": (PRINTING, range(1, 100_000)),
    "--html": (WRITING | {"--units"}, (1, 2)),
    "--json": (WRITING, (1, 2)),
    "--csv": (WRITING, (1, 2)),
    "--breaking": (PRINTING, (1,)),
    "--fix": ({"--force"}, (2,)),
    "--toml": ({"--force"}, (1, 2)),
    "--rows": ({"--force", "--exact"}, (1, 2)),
    "--write": ({"--force", "--exact"}, (1, 2)),
    "--svg": ({"--force", "--exact", "--strict"}, (1, 2)),
    "--help": (set(), (0,)),
    "--version": (set(), (0,)),
}
ALL = FORMS.keys() | set().union(*(beside for beside, _ in FORMS.values()))
UNASKED = {(form, option) for form in ("--html", "--json", "--csv") for option in ("--why", "--order")}


class Usage(Exception):
    """Words that are no command; where it is known, with what is wrong."""


def parsed(words):
    """The options that were given, each with its value if it has one, and the names."""
    options, names, left = {}, [], iter(words)
    for word in left:
        if word == "--":
            return options, names + list(left)
        if word == "--breaking":
            if word in options:
                raise Usage()
            options[word] = delay_of(next(left, ""))
        elif word.startswith("-") and word != "-":
            options["--help" if word == "-h" else word] = ""
        else:
            names.append(word)
    return options, names


def form_of(options, names):
    """The option that says what is done, where the others and the number of names go with it."""
    form = next((option for option in FORMS if option in options), "")
    beside, counts = FORMS[form]
    if not form and len(names) > 1:
        beside = SEVERAL
    if stray := [option for option in options if option not in beside | {form}]:
        raise Usage(misplaced(stray[0], form))
    if form == "--breaking" and len(names) > 1:
        raise Usage(misplaced(form, ""))
    if len(names) not in counts or not form and names.count("-") > 1:
        raise Usage()
    return form


def misplaced(option, form):
    """Why an option does not stand with the others."""
    if option not in ALL:
        return f"there is no option {visible(option)}"
    if form:
        return f"{option} does not go with {form}" + (", which has it unasked" if (form, option) in UNASKED else "")
    return f"{option} goes with a single file" if option in PRINTING | {"--breaking"} else f"{option} goes with an option that writes a file"


def carried_out(words):
    """What a command gives; with --strict, status 3 where all went well and some bus is over or close."""
    options, names = parsed(words)
    answer = answered(options, names)
    return answer._replace(status=3) if "--strict" in options and answer.status == 0 and answer.heed else answer


def answered(options, names):
    form, force, exact = form_of(options, names), "--force" in options, "--exact" in options
    if form == "--help":
        return Answer(0, HELP.rstrip("\n"))
    if form == "--version":
        return Answer(0, edition())
    if form == "--fix":
        return fixed(*names, force)
    source, target = (names + ["-"])[:2]
    if form == "--toml":
        return as_plan(source, target, force)
    if form == "--rows":
        return as_rows(source, target, force, exact)
    if form == "--write":
        return in_rows(source, target, force, exact)
    if form == "--svg":
        return as_diagram(source, target, force, exact)
    if form in HANDING:
        return HANDING[form](source, target, force, asked(options))
    return listed(names, exact) if len(names) > 1 else shown(source, asked(options))


def asked(options):
    """What is asked for beside the table."""
    units, why, order, confirm = (word in options for word in ("--units", "--why", "--order", "--confirm"))
    return Options("--exact" in options, options.get("--breaking", ""), units, why, order, confirm)


def main(words):
    try:
        answer = carried_out(words)
        if answer.out:
            deliver(answer.out)
        if answer.notes:
            complain(answer.notes)
        return answer.status
    except BrokenPipeError:
        return 2
    except Usage as usage:
        complain("\n".join([f"board: {words}" for words in usage.args] + [USAGE]))
    except Trouble as trouble:
        complain(f"board: {trouble}")
    except KeyboardInterrupt:
        complain("board: interrupted")
    return 2
