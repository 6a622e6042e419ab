"""The rules of Yampeak in plain Python, written from docs/RULES.md alone.

Nothing here is made to be fast. Numbers are Python integers, so nothing can overflow.
A binder is a list of sheets, in the order of their component numbers.
"""


def is_power_of_two(x):
    """True for 1, 2, 4, ... up to 4,096, the powers of two that a period or q may be."""
    return x in (1, 2, 4, 8, 16, 32, 64, 128, 256, 512, 1024, 2048, 4096)


# ---------------------------------------------------------------- sheets


class Rows:
    """A sheet of 1 to 8 rows, each a tuple (T, D, C, n)."""

    kind = 1

    def __init__(self, rows):
        self.rows = list(rows)

    def bound(self, length):
        total = 0
        for t, d, c, n in self.rows:
            if length >= d:
                total += n * c * ((length - d) // t + 1)
        return total

    def gain(self):
        total = 0
        for t, d, c, n in self.rows:
            total += n * c * 4096 // t
        return total

    def fields(self):
        """All fields in file order."""
        flat = []
        for row in self.rows:
            flat.extend(row)
        return flat


class Line:
    """A line: deadline D, burst b, and r units every q ticks."""

    kind = 2

    def __init__(self, d, b, q, r):
        self.d = d
        self.b = b
        self.q = q
        self.r = r

    def bound(self, length):
        if length < self.d:
            return 0
        return self.b + self.r * (length - self.d) // self.q

    def gain(self):
        return self.r * 4096 // self.q

    def fields(self):
        """All fields in file order."""
        return [self.d, self.b, self.q, self.r]


# ---------------------------------------------------------------- questions to a binder


def bound_of(sheets, k, length):
    """The bound of component k; 0 where there is no such component."""
    if k >= len(sheets):
        return 0
    return sheets[k].bound(length)


def gain_of(sheets, k):
    """The gain of component k; 0 where there is no such component."""
    if k >= len(sheets):
        return 0
    return sheets[k].gain()


def side_by_side(first, second):
    """Two binders as one; nine components stand for nine and more."""
    return (first + second)[:9]


# ---------------------------------------------------------------- the admission test


def admission(sheets):
    """The pair (number, length); (0, 0) for an admitted binder."""
    if len(sheets) == 0 or len(sheets) >= 9:
        return (10, 0)
    for length in range(1, 8192 + 1):
        total = 0
        for sheet in sheets:
            total += sheet.bound(length)
        if total > length:
            return (8, length)
    gains = 0
    for sheet in sheets:
        gains += sheet.gain()
    if gains > 4096:
        return (9, 0)
    return (0, 0)


# ---------------------------------------------------------------- the binder file


def word(data, place):
    """The two bytes at a place, the low one first."""
    return data[place] + 256 * data[place + 1]


def read(data):
    """Read a binder file.

    Answers (sheets, (0, 0, 0)) for an accepted file and (None, (number, record, place))
    for a refused one.
    """
    if len(data) == 0:
        return None, (6, 0, 0)
    sheets = []
    place = 0
    while place < len(data):
        record = len(sheets)
        # 6: any byte after the eighth record.
        if record == 8:
            return None, (6, 8, place)
        # 1: fewer than 4 bytes remain, or the length passes the end.
        if len(data) - place < 4:
            return None, (1, record, place)
        length = word(data, place)
        if place + 2 + length > len(data):
            return None, (1, record, place)
        # 2: the kind.
        kind = word(data, place + 2)
        if kind != 1 and kind != 2:
            return None, (2, record, place)
        # 3: the length, then the fields.
        if kind == 1:
            if length not in (10, 18, 26, 34, 42, 50, 58, 66):
                return None, (3, record, place)
            sheet, fault = read_rows(data, record, place + 4, (length - 2) // 8)
        else:
            if length != 10:
                return None, (3, record, place)
            sheet, fault = read_line(data, record, place + 4)
        if sheet is None:
            return None, fault
        sheets.append(sheet)
        place += 2 + length
    return sheets, (0, 0, 0)


def read_rows(data, record, place, count):
    """Read the rows whose first one stands at the place."""
    rows = []
    before = None
    for i in range(count):
        at = place + 8 * i
        t = word(data, at)
        if not is_power_of_two(t):
            return None, (4, record, at)
        d = word(data, at + 2)
        if d < 1 or d > t:
            return None, (4, record, at + 2)
        c = word(data, at + 4)
        if c < 1 or c > 4096:
            return None, (4, record, at + 4)
        n = word(data, at + 6)
        if n < 1 or n > 16:
            return None, (4, record, at + 6)
        # The order is by D, then T, then C; n takes no part in it.
        key = (d, t, c)
        if before is not None and not before < key:
            return None, (5, record, at)
        before = key
        rows.append((t, d, c, n))
    return Rows(rows), (0, 0, 0)


def read_line(data, record, place):
    """Read the line whose first field stands at the place."""
    d = word(data, place)
    if d < 1 or d > 4096:
        return None, (4, record, place)
    b = word(data, place + 2)
    if b > 4096:
        return None, (4, record, place + 2)
    q = word(data, place + 4)
    if not is_power_of_two(q):
        return None, (4, record, place + 4)
    r = word(data, place + 6)
    if r > q:
        return None, (4, record, place + 6)
    return Line(d, b, q, r), (0, 0, 0)


def file_of(sheets):
    """The bytes of a binder's file."""
    out = bytearray()
    for sheet in sheets:
        fields = sheet.fields()
        words = [2 + 2 * len(fields), sheet.kind] + fields
        for w in words:
            out.append(w % 256)
            out.append(w // 256)
    return bytes(out)


def write(sheets, buffer):
    """Write a binder into a bytearray.

    Answers (0, count), or a refusal (6, 0, 0) or (7, needed) that leaves the buffer.
    """
    if len(sheets) == 0:
        return (6, 0, 0)
    data = file_of(sheets)
    if len(buffer) < len(data):
        return (7, len(data))
    for i in range(len(data)):
        buffer[i] = data[i]
    return (0, len(data))


# ---------------------------------------------------------------- the boot entry


def boot(data):
    """The boot entry's number for a file."""
    sheets, (number, record, place) = read(data)
    if sheets is None:
        return number * 65536 + place
    number, length = admission(sheets)
    return number * 65536 + length


# ---------------------------------------------------------------- sheets from task lists


def round_down(x):
    """The greatest power of two that is at most x."""
    power = 1
    while power * 2 <= x:
        power *= 2
    return power


def round_up(x):
    """The least power of two that is at least x."""
    power = 1
    while power < x:
        power *= 2
    return power


def from_tasks(tasks):
    """Make a sheet from a list of tasks (T, D, C).

    Answers (0, rows) with the rows in sheet order, or (18, index) or (19, index).
    """
    # 18 for the list as a whole.
    if len(tasks) == 0:
        return (18, 0)
    if len(tasks) > 64:
        return (18, 64)
    # 18 for the first task that is out of range.
    for index in range(len(tasks)):
        t, d, c = tasks[index]
        if t < 1 or t > 8191:
            return (18, index)
        if d < 1 or d > t:
            return (18, index)
        if c < 1 or c > 4096:
            return (18, index)
    # 19 for the first task that finds no room.
    keys = []
    copies = []
    for index in range(len(tasks)):
        t, d, c = tasks[index]
        key = (round_down(d), round_down(t), round_up(c))
        if key in keys:
            at = keys.index(key)
            if copies[at] == 16:
                return (19, index)
            copies[at] += 1
        else:
            if len(keys) == 8:
                return (19, index)
            keys.append(key)
            copies.append(1)
    rows = []
    for key in sorted(keys):
        d, t, c = key
        rows.append((t, d, c, copies[keys.index(key)]))
    return (0, rows)
