"""The program `sit` in plain Python: from the bytes of a binder file and of an input to the bytes that it writes.

An input line is `a COMPONENT DEADLINE`, `f JOB` or `t`. It ends at byte 0A or at the input's end, and no line
follows a final 0A.
"""

import rules
from job_windows import JobWindowScheduler
from scheduler import verdict

MOST_BYTES = 65536


def lines_of(text):
    lines = text.split(b"\n")
    # What stands behind the last 0A is a line only if there is something.
    if lines[-1] == b"":
        lines.pop()
    return lines


def number_of(part):
    """The number that 1 to 9 decimal digits write, or None."""
    if not 1 <= len(part) <= 9:
        return None
    value = 0
    for byte in part:
        if not 48 <= byte <= 57:
            return None
        value = 10 * value + byte - 48
    return value


def call_of(line):
    """The call that the line writes, or None for a line of another form."""
    parts = line.split(b" ")
    numbers = [number_of(part) for part in parts[1:]]
    if None in numbers:
        return None
    if parts[0] == b"a" and len(numbers) == 2:
        return ("arrive", numbers[0], numbers[1])
    if parts[0] == b"f" and len(numbers) == 1:
        return ("finish", numbers[0])
    if parts[0] == b"t" and len(numbers) == 0:
        return ("tick",)
    return None


def event_text(call, answer):
    if answer[0] == "refused":
        return "refused %d" % answer[1]
    if answer[0] == "job":
        return "job %d" % answer[1]
    if answer[0] == "finished":
        return "finished %d used %d" % (call[1], answer[1])
    _, ran, held, cut = answer
    what = "idle" if ran is None else "ran %d" % ran
    return "%s held %d cut %d" % (what, held, cut)


def output_lines(file, text):
    if len(file) > MOST_BYTES or len(text) > MOST_BYTES:
        return ["input too long"]
    sheets, (number, _, place) = rules.read(file)
    if sheets is None:
        return ["file %d at %d" % (number, place)]
    number, length = verdict(sheets)
    if number != 0:
        return ["refused %d at %d" % (number, length)]
    scheduler = JobWindowScheduler(sheets)
    out = ["admitted"]
    for index, line in enumerate(lines_of(text)):
        call = call_of(line)
        if call is None:
            return out + ["line %d unreadable" % (index + 1)]
        out.append(event_text(call, scheduler.perform(call)))
    return out


def sit(file, text):
    """The bytes that the program writes."""
    return "".join(line + "\n" for line in output_lines(file, text)).encode("ascii")
