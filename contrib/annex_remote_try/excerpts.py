"""The part of a conversation that a reader is shown with a failure."""

LENGTH = 16


def hide(text, parts):
    """A line without the values of settings whose name tells that they are secret."""
    for part in parts:
        text = text.replace(part, "***")
    return text


def shown(bench, text):
    """A text without secrets, and with a short name for the tester's folder."""
    return hide(text, bench.secrets).replace(bench.folder, "/tmp")


def line_of(bench, mark, text):
    line = f"{mark} {shown(bench, text)}"
    return line if len(line) <= 200 else f"{line[:197]}.."


def of_session(bench, session, count):
    """The last lines of one session in this test."""
    name = bench.test.name if bench.test else ""
    log = [(mark, text) for mark, text, place in session.log if mark != "=" and bench.entries[place][3] == name]
    return [line_of(bench, mark, text) for mark, text in log[-count:]]


def of_test(bench):
    """The last lines of a test, of all its processes in their order; how each got ready is left out."""
    said = []
    for number, mark, text, place in said_in(bench):
        if mark != "=" and place > bench.sessions[number - 1].prepared:
            said.append((number, line_of(bench, mark, text)))
    if not said:
        return of_session(bench, bench.sessions[-1], LENGTH) + complaints(bench, bench.sessions[-1]) if bench.sessions else []
    processes = list(dict.fromkeys(number for number, _ in said))
    lines, last = [], None
    for number, line in said[-LENGTH:]:
        if number != last and len(processes) > 1:
            lines.append(f"! process {processes.index(number) + 1}")
        lines.append(line)
        last = number
    return lines + [line for number in processes for line in complaints(bench, bench.sessions[number - 1])]


def said_in(bench):
    """What was recorded in this test."""
    first = len(bench.entries)
    while first and bench.entries[first - 1][3] == bench.test.name:
        first -= 1
    return [(number, mark, text, place) for place, (number, mark, text, _) in enumerate(bench.entries[first:], first)]


def complaints(bench, session):
    """The last lines that the program wrote to standard error, where it ended by itself."""
    if not session.has_died:
        return []
    with open(bench.path(f"stderr.{session.number}"), "rb") as file:
        lines = file.read()[-4000:].decode("utf-8", "replace").splitlines()[-6:]
    return [f"2 {shown(bench, line)[:200]}" for line in lines]
