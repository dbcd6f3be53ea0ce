"""Runs the proved program over a personnel workload, over a file and over memory, at two sizes, and says whether its cost for a command stays flat;
and over long lines, and says whether its cost for a byte of a line does."""

import os
import resource
import subprocess
import sys
import tempfile
import time

PROGRAM = os.path.join(os.path.dirname(os.path.abspath(__file__)), "..", "crates", "starburst", "out", "starburst")
MEMORY = "/dev/shm"
SIZES = [1_000, 10_000]
BATCH = 50
# With ten times the rows a command may take so many times the processor time. One that looked through all rows would take far more.
MOST = 2.5


def draws(x=1):
    """Numbers of 31 bits, one after the other, always the same."""
    while True:
        x = (x * 6364136223846793005 + 1442695040888963407) % 2**64
        yield x >> 33


def workload(rows):
    """Hires people into ten departments, gives rises and takes some out again, by their number, in transactions of fifty hires."""
    lines = [
        "create dept using tree (id int, name text(20)) key (id)",
        "create emp using tree (id int, dept int, salary int) key (id)",
        "create gone using heap (id int)",
        "attach check pos on emp salary >= 0",
        "attach trigger left on emp after delete when always do insert gone values (old.id)",
    ]
    lines += [f"insert dept values ({at}, 'd')" for at in range(10)]
    for at, draw in zip(range(rows), draws()):
        if at % BATCH == 0:
            lines.append("begin")
        lines.append(f"insert emp values ({at}, {draw % 10}, {draw // 10 % 16_000})")
        other = draw // 2_560_000 % (at + 1)
        if draw // 160_000 % 16 < 4:
            lines.append(f"add emp salary by 1 where id = {other}")
        elif draw // 160_000 % 16 == 4:
            lines.append(f"delete emp where id = {other}")
        if at % BATCH == BATCH - 1 or at == rows - 1:
            lines.append("commit")
    return lines


def run(store, lines):
    """The seconds of the clock and of the processor that a run takes over a new store, and the blocks that it wrote."""
    words = [PROGRAM, "--store", store, "--create", "--pages", "8192", "--log", "16777216"]
    text = "".join(line + "\n" for line in lines).encode()
    was, began = resource.getrusage(resource.RUSAGE_CHILDREN), time.monotonic()
    ran = subprocess.run(words, input=text, stdout=subprocess.PIPE, timeout=110)
    ended, now = time.monotonic(), resource.getrusage(resource.RUSAGE_CHILDREN)
    replies = ran.stdout.decode().splitlines()
    refused = [reply for reply in replies if reply.startswith(("!", "?"))]
    if ran.returncode or len(replies) != len(lines) or refused:
        sys.exit(f"the workload: status {ran.returncode}, {len(replies)} replies to {len(lines)} commands, {refused[:1]}")
    os.remove(store)
    return ended - began, now.ru_utime + now.ru_stime - was.ru_utime - was.ru_stime, now.ru_oublock - was.ru_oublock


def has_room(place):
    """Whether there is a folder in memory, and room in it."""
    if not os.access(place, os.W_OK):
        return False
    free = os.statvfs(place)
    return free.f_bavail * free.f_frsize > 2**28


def measure(folder, name):
    """Prints what a command and a commit cost at each size, and returns the processor time of a command."""
    costs = []
    made = min(run(os.path.join(folder, "empty"), [])[2] for _ in range(2))
    for rows in SIZES:
        lines = workload(rows)
        commits = lines.count("commit") + lines.index("begin")
        runs = [run(os.path.join(folder, f"rows{rows}"), lines) for _ in range(3)]
        clock, processor, blocks = (min(column) for column in zip(*runs))
        costs.append(processor / len(lines))
        print(
            f"{name}, {rows} rows: {len(lines) / clock:.0f} commands a second, {1e6 * costs[-1]:.0f} us of the processor each,"
            f" {512 * max(blocks - made, 0) / commits:.0f} bytes written a commit"
        )
    return costs


# What makes a line long: many comparisons, one text, or a text without end; the first piece, what is repeated, and the last one.
FORMS = [
    ("a predicate", "attach check c on r a < 10", " or not (a < 10 and b <> 'x')", ""),
    ("a text", "insert r values ('", "x", "')"),
    ("a text without end", "insert r values ('", "'", ""),
]
SHORT, LONG, BYTES = 512, 4_096, 4_194_304


def lines_of(form, length):
    """As many lines of the form as have all bytes together, each of the length."""
    _, front, piece, back = form
    line = front + piece * ((length - len(front) - len(back)) // len(piece)) + back
    return [line.ljust(length)] * (BYTES // length)


def reading(folder, lines):
    """The seconds of the processor in which the program refuses these lines, none of which it can carry out; the least of three runs."""
    words = [PROGRAM, "--store", os.path.join(folder, "lines"), "--create"]
    text = "".join(line + "\n" for line in lines).encode()
    times = []
    for _ in range(3):
        was = resource.getrusage(resource.RUSAGE_CHILDREN)
        ran = subprocess.run(words, input=text, stdout=subprocess.PIPE, timeout=110)
        now = resource.getrusage(resource.RUSAGE_CHILDREN)
        os.remove(words[2])
        replies = ran.stdout.decode().splitlines()
        if ran.returncode or len(replies) != len(lines) or not all(reply.startswith("! ") for reply in replies):
            sys.exit(f"lines of {len(lines[0]) if lines else 0} bytes: status {ran.returncode}, {len(replies)} replies to {len(lines)} lines, {replies[:1]}")
        times.append(now.ru_utime + now.ru_stime - was.ru_utime - was.ru_stime)
    return min(times)


def measure_lines(folder):
    """Says for each form how much longer as many bytes take in long lines than in short ones. A cost that grew with the square would be eight times."""
    none = reading(folder, [])
    for form in FORMS:
        short, long = (reading(folder, lines_of(form, length)) - none for length in (SHORT, LONG))
        print(f"{form[0]}: {1e9 * long / BYTES:.0f} ns of the processor a byte in lines of {LONG} bytes, {long / short:.1f} times that in lines of {SHORT}")
        if long > 2 * short:
            sys.exit(f"{form[0]} of {LONG} bytes takes more than 16 times what one of {SHORT} does")


if __name__ == "__main__":
    places = [("a file", None)] + ([("memory", MEMORY)] if has_room(MEMORY) else [])
    for name, place in places:
        with tempfile.TemporaryDirectory(dir=place) as folder:
            small, large = measure(folder, name)
        if large > MOST * small:
            sys.exit(f"over {name} a command takes {large / small:.1f} times as long where there are ten times the rows")
    print("the cost of a command stays flat")
    with tempfile.TemporaryDirectory() as folder:
        measure_lines(folder)
    print("the cost of a byte of a line stays flat")
