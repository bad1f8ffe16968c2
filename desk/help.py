"""What `board` says of itself."""

USAGE = "usage: board FILE .., or board --html | --svg | --json | --csv | --fix | --toml | --rows | --write IN OUT (board --help says more)"
HELP = """\
name
    board - short-circuit currents of a study, as a table for people

usage
    board [--breaking MS] [--units] [--why] [--order] [--confirm] [--exact] [--strict] FILE
    board [--exact] [--strict] FILE FILE ..
    board --html [--breaking MS] [--units] [--confirm] [--exact] [--strict] IN [OUT] [--force]
    board --json | --csv [--breaking MS] [--confirm] [--exact] [--strict] IN [OUT] [--force]
    board --fix IN OUT [--force]
    board --toml IN [OUT] [--force]
    board --rows [--exact] IN [OUT] [--force]
    board --write [--exact] IN [OUT] [--force]
    board --svg [--exact] [--strict] IN [OUT] [--force]
    board --help | --version

what it prints
    FILE is a study: as rows S, B and P, or as a plan, a TOML file with named buses and the units of data sheets.
    README.md has both. A file is a plan where its name ends in .toml. `-` is standard input; it is a plan where its
    first line, blank lines and remarks apart, begins with a bracket or has an equals sign before any comma.

    The table has a row for each bus: bounds of the machines' and of the converters' initial current, the peak of both
    together, the two ratings and the verdict, all in amperes; of a plan also the bus's name. The figures come from the
    proved program crates/noldveig/out/noldveig; where it is not there yet, it is proved and built first by
    `rt run` in crates/noldveig, which takes some minutes.
    If its sources in crates have changed since, it is built anew. If rt is not there, the older program answers, and
    standard error and a page say that it is older.

    A study that is refused is answered with the number of the ground, the row with a mark (^) under the place, and what
    is wrong there. Rows count from 1, fields from 1 behind the row's letter. What a row cannot show is written as a
    name or a value, such as <LF>, <TAB> or <C3>.

    The mistakes of a plan are listed, each with its line. A number of a plan that is no whole number of the row's units
    (a length of 2.40045 km, where a row has metres) is rounded to the nearest; below the table stands each such place
    with the difference.

    Several files are answered with a line for each: how many buses it has, how many of them are within, close and over,
    and the worst bus, which is the most loaded of those with the worst verdict; or why the file is refused or was not read.

options
    --exact
        Nothing is rounded: a plan in which something would have to be is refused, with the places.
    --breaking MS
        Adds the breaking current Ib for a minimum delay of MS, which is 20, 50, 100 or 250 ms: a column of the table, and
        below it a table of who contributes how much. This has for each bus its generators, those of power station units too,
        the largest share first: the lower and the upper bound of the share, in amperes and before the factor μ, and the upper
        in percent of Ib. Generators alike at one bus stand in one line, added up. What comes to less than 1 % of Ib is left
        out; a last line says how many generators these are and what they come to at most. Where that would be one line
        alone, it is listed instead.
        Ib contains besides the feeder and the motors with μ = 1 and the converters in full; of these there are no bounds.
        The figures come from the proved program crates/console/out/console, as with --write.
    --units
        Everything in kV and kA in place of volts and amperes, with all digits, and a column of the short-circuit power S″k in
        MVA: √3 times the nominal voltage times the initial current of both parts, of the lower bound rounded down and of the
        upper bound rounded up to 0.1 MVA.
    --why
        Adds a table of what drives the verdicts: each bus's two ratings against the machines alone and against machines and
        converters, with the margin of each, below 0 where it is over; and in words whether the machines alone put the bus
        over, or only the converters, which are added up plainly.
    --order
        Adds a table of suggestions: for each bus the smallest rating of the series that switchgear is made in (1, 1.25, 1.6,
        2, 2.5, 3.15, 4, 5, 6.3, 8, 10 .. 100 kA) that bears the upper bound of the initial current and the peak, with the
        margin of each and which of the two decides. The peak rating goes by IEC 62271-1 above 1,000 V, 2.5 times the rating,
        and by IEC 61439-1 up to it, 1.5 to 2.2 times.
    --confirm
        Has a second program, the exact fractions of tests/judge, read the rows, work out every current anew and check what
        the proved programs gave: all bounds and peaks, with --breaking also Ib and each share, and the verdicts. It says how
        many figures it confirmed. A difference is an error, with the bus, the figure and the exact value, and no table is
        printed. It takes a moment, with the largest studies two or three seconds.
    --fix IN OUT
        Mends how rows are put down and writes the result to OUT; IN stays as it is. Mended is what is certain: line
        ends become CRLF; a byte order mark goes; UTF-16 becomes plain text; blank rows at the end go; semicolons become
        commas where the file has no comma, and tabs where it has neither; blanks around fields go; separators behind the
        last field go, and a small row letter becomes a capital, where the row then has its number of fields. No number is
        changed. It says what was changed, and whether the program accepts the result; OUT is written either way.
    --toml IN [OUT]
        Writes rows that the program accepts as a plan, in which the buses are called bus 0, bus 1 and so on. Without OUT,
        or with `-`, it goes to standard output.
    --rows IN [OUT]
        Writes a plan as rows, with CRLF, in the same way. Only rows that the program accepts are written. They are the same
        bytes that --write gives for the plan, with all twelve numbers of each source.
    --write IN [OUT]
        Writes rows or a plan as tidy rows, in the same way: S, all buses, all sources with all twelve numbers, each row with
        CRLF. Buses and sources keep their order, so that no bus gets another number. It says how many there are and how many
        bytes, on standard error where the rows go to standard output, and of a plan that rows have no names. The text comes
        from the proved program crates/console/out/console, which is built first by `rt run` in crates/console where it is
        not there yet.
    --svg IN [OUT]
        Draws rows or a plan as a one-line diagram, in the same way: an SVG file with the upper bound of the initial
        current, the peak and the verdict of each bus, by colour, letter and shape. A browser opens and prints it.
    --html IN [OUT]
        Writes rows or a plan as a page to hand on, in the same way: one file with no script and nothing to fetch, which any
        browser shows and prints. It has the verdict of the whole, the diagram, the table, with --breaking the shares, what
        drives the verdicts, what to order, the inputs in the units of data sheets, and what the figures mean. On paper a
        large diagram is cut into sheets that can be read. A refused study gets a page that explains the refusal. The page
        has no date: with one edition of board, the same file gives the same bytes.
    --json IN [OUT]
        Writes one JSON object, in the same way: accepted, true or false; study, with tolerance_percent, buses, sources and
        roundings, branches and sources under the keys of a plan; figures, for each bus in whole amperes, with the verdict, its
        words, what drives it, the margins as --why has them (null where the rating lies between the bounds) and the rating
        that --order suggests; with --breaking also breaking, with the shares of generators by their place among the sources,
        and with --confirm confirmation. A refused study has refusal instead: words, and ground, row, fields, reason and
        sentences, or the mistakes of a plan, each with its line.
    --csv IN [OUT]
        Writes the same figures as lines of CSV, a line of headings and one for each bus, in the same way: UTF-8, commas, CRLF.
        An apostrophe stands before a name that begins with = + - @, which a spreadsheet would calculate with, or with an
        apostrophe. A refused study has no lines, and nothing is written.
        With all that write a file but --fix, roundings, refusals and what --confirm says go to standard error.
    --strict
        The exit status is 3 where a study is accepted and some bus is over or close.
    --force
        With all that write a file: OUT is overwritten where it is there already. It keeps its permissions,
        and stays as it is until the new text is whole, so that a full disk or Ctrl-C does not cost it; only where its folder
        lets no other file take its place is it written into. IN is never changed.
        A study is never overwritten, but for rows by rows and a plan by a plan. It is known by what
        stands in it. A name that ends in .toml is for --toml alone, since board would read any other result as a plan.
    --help, --version
        This text; the name and the revision.
    --
        What follows is a name, even where it begins with a dash.

exit status
    0   the study was accepted; with --fix, the result was
    1   it was refused, or the plan has mistakes
    2   the command could not be carried out, or --confirm found a difference; standard error says why
    3   with --strict alone: the study was accepted, and some bus is over or close
    Of several files the worst counts: 2, a file that could not be read, before 1, and 1 before 3.

examples
    ./board examples/town.csv
    ./board examples/town.toml
    ./board - < examples/substation.csv
    ./board --breaking 100 examples/ieee33.csv
    ./board --units --why examples/town.toml
    ./board --order --confirm examples/substation.csv
    ./board --toml examples/town.csv plan.toml && ./board --exact plan.toml
    ./board --rows examples/from-data-sheets.toml | ./board -
    ./board --write examples/substation.csv tidy.csv && ./board tidy.csv
    ./board --svg examples/town.toml town.svg
    ./board --html --breaking 100 examples/town.toml town.html
    ./board --json examples/town.toml town.json
    ./board --csv examples/town.toml table.csv
    ./board --strict examples/ieee33.csv examples/substation-grid.csv
    tr -d '\\r' < examples/town.csv > unix.csv; ./board --fix unix.csv mended.csv && ./board mended.csv
"""
