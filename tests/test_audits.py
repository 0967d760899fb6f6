"""`special audit` over texts of runs that are worked by hand from docs/FORMATS.md.

`rows/audits.txt` and `rows/journals.txt` have them; `# TEXT` is a heading, and the rows after it are one case.

- `new` begins a text, and `> LINE` is its next line. The text holds for the next headings too.
- `front LINES PIECE`: an audit of the text's first lines, written in pieces of so many bytes. With `unended` the last byte is left
  out.
- `audit EDITS`: of the text with other entries. An edit is a place and `-` for an entry that is left out, `= ENTRY` for another one
  in its stead, or `+ ENTRY` for one before it. They are made one after the other, and the last line then has the number of entries.
- `lines EDITS`: of the text with other lines. The edits are the same, at a line's number from 1, and all else stays as it is.
- `bytes TEXT`: of these bytes, where `\\n` is a line's end.

In all of them `\\t` is a byte 9.

After `=>` comes what is found: `legal`, `wrong ENTRY KIND`, or the line that is refused with its reason.
"""

import scenes
from harness import SPECIAL, TOP, Done, audit, expect, finish, limits, require, start, table

HEAD = "annex-journal 2\nuuid 00000000-0000-0000-0000-000000000000\nname \ngitdir \nstamp 0\nagain 0\n"


def edited(lines, edits, first):
    """The lines with these edits, whose places count from `first`."""
    lines = list(lines)
    for edit in edits.split(" | "):
        place, _, change = edit.partition(" ")
        sign, _, line = change.partition(" ")
        at = first + int(place)
        if sign in "-=":
            del lines[at:at + 1]
        if sign in "+=":
            lines.insert(at, line)
    return lines


def text_of(lines):
    return "".join(line + "\n" for line in lines)


def with_entries(lines, edits):
    """The text with other entries, and their number in its last line."""
    first = lines.index("begin") + 1
    lines = edited(lines[:-1], edits, first)
    return text_of([*lines, f"end {len(lines) - first}"])


def done_of(wanted):
    """How `special audit` ends that finds this."""
    if wanted.startswith("line "):
        return Done(3, "", f"special: {wanted}\n")
    return Done(0 if wanted == "legal" else 1, f"{wanted}\n", "")


def pieces_audited(data, size):
    """The audit of an input that comes in pieces of so many bytes."""
    process = start([SPECIAL, "audit"])
    for at in range(0, len(data), size):
        process.stdin.write(data[at:at + size])
        process.stdin.flush()
    return finish(process)


def played(lines, row):
    """What the audit of the row comes to."""
    word, _, rest = row.partition(" ")
    if word == "audit":
        return audit(with_entries(lines, rest))
    if word == "lines":
        return audit(text_of(edited(lines, rest, -1)))
    if word == "bytes":
        return audit(rest.replace("\\n", "\n"))
    count, size, *unended = rest.split(" ")
    text = text_of(lines[:int(count)])
    return pieces_audited((text[:-1] if unended else text).encode(), int(size))


def texts(name):
    """The cases of a file: a heading, and pairs of a text's lines and a row."""
    lines = []
    for heading, rows in scenes.sections(name):
        pairs = []
        for row in (row.replace("\\t", "\t") for row in rows):
            if row == "new":
                lines = []
            elif row.startswith("> "):
                lines = [*lines, row[2:]]
            else:
                pairs.append((lines, row))
        yield heading, pairs


@table([(f"{file}: {heading}", pairs) for file in ("audits.txt", "journals.txt") for heading, pairs in texts(file)])
def a_text_is_audited(room, pairs):
    require(pairs, "rows of this heading")
    for lines, row in pairs:
        row, _, wanted = row.rpartition(" => ")
        expect(played(lines, row), done_of(wanted), row)


def case_the_input_is_read_to_its_end_before_a_line_is_refused(room):
    # A pipe holds 64 KiB: all that is written was read before the last pieces went in.
    expect(pieces_audited(b"x\n" * 500_000, 65536), done_of("line 1: entry"))


@limits(120)
def case_a_text_may_have_65536_tasks(room):
    task = "task drop WORM--a\n"
    expect(audit(HEAD + task * 65536 + "begin\nend 0\n"), done_of("legal"), "as many as there may be")
    expect(audit(HEAD + task * 65537 + "begin\nend 0\n"), done_of("line 65543: entry"), "one more")


@table([(name, name) for name in ("chunked", "plain", "tagged")])
def a_text_of_an_earlier_program_is_read_as_before(room, name):
    """Each was written by the program before a task could name an exported file."""
    with open(f"{TOP}/tests/journals/{name}.txt") as file:
        lines = file.read().splitlines()
    expect(audit(text_of(lines)), done_of("legal"), "the whole text")
    first = lines.index("begin") + 1
    answer = next(at for at, line in enumerate(lines[first:]) if " answer " in line)
    claim = next(at for at, line in enumerate(lines[first:]) if " claim " in line)
    expect(audit(with_entries(lines, f"{claim} -")).status, 1, "without its first claim")
    expect(audit(with_entries(lines, f"{answer} -")).status, 1, "without its first answer")
