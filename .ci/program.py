"""Runs the proved program over real files: a second run over its store, words that are refused, and runs that are killed."""

import os
import random
import re
import subprocess
import sys
import tempfile

HERE = os.path.join(os.path.dirname(os.path.abspath(__file__)), "..", "crates", "starburst")
PROGRAM = os.path.join(HERE, "out", "starburst")
SMALLEST = ["--create", "--pages", "64", "--log", "2097152"]
ROUNDS = 20
COMMITS = 120


def run(words, lines=b""):
    ran = subprocess.run([PROGRAM, *words], input=lines, stdout=subprocess.PIPE, timeout=60)
    return ran.returncode, ran.stdout


def expect(what, found, wanted):
    if found != wanted:
        sys.exit(f"{what}: {found!r}, and not {wanted!r}")


def read(name):
    with open(os.path.join(HERE, name), "rb") as file:
        return file.read()


def test_runs(store):
    expect("no words", run([]), (2, b"? words\n"))
    expect("a word that isn't UTF-8", run([b"--store", b"\xff"]), (2, b"? words\n"))
    expect("no file", run(["--store", store]), (3, b""))
    expect("the first run", run(["--store", store, *SMALLEST], read("stdin")), (0, read("stdout")))
    rows = b"@8000000000000005 (5)\n@8000000000000007 (7)\nok 2\n"
    rules = b"create r using tree (k int) key (k)\nattach check pos on r k >= 0\nok 2\n"
    expect("the second run", run(["--store", store], b"scan r\nshow r\n"), (0, rows + rules))
    expect("a store made twice", run(["--store", store, *SMALLEST]), (6, b"? alreadystore\n"))


def commit(number):
    """The lines of a commit, and the keys that it adds: one insert, or a transaction of three."""
    keys = [10 * number] if number % 2 else [10 * number + at for at in range(3)]
    lines = [f"insert r values ({key})\n" for key in keys]
    if len(keys) > 1:
        lines = ["begin\n", *lines, "commit\n"]
    return lines, keys


def killed(store, first, replies):
    """Runs commits from the first number on, kills the run behind so many replies, and says how many commits were acknowledged."""
    ends, lines = [], []
    for number in range(first, first + COMMITS):
        lines += commit(number)[0]
        ends.append(len(lines))
    process = subprocess.Popen([PROGRAM, "--store", store], stdin=subprocess.PIPE, stdout=subprocess.PIPE)
    process.stdin.write("".join(lines).encode())
    process.stdin.flush()
    for _ in range(replies):
        process.stdout.readline()
    process.kill()
    more = process.stdout.read().count(b"\n")
    process.wait()
    return sum(end <= replies + more for end in ends)


def test_kills(store):
    draw = random.Random(7)
    expect("a new store", run(["--store", store, "--create"], b"create r using tree (k int) key (k)\n"), (0, b"ok\n"))
    stands = 0
    for turn in range(ROUNDS):
        acknowledged = stands + killed(store, stands, draw.randrange(1, 300))
        status, output = run(["--store", store], b"scan r\n")
        found = sorted(int(key) for key in re.findall(rb"\((\d+)\)", output))
        keys, commits = [], 0
        while len(keys) < len(found):
            keys += commit(commits)[1]
            commits += 1
        if status or keys != found or commits < acknowledged:
            sys.exit(f"kill {turn}: {acknowledged} commits were acknowledged; status {status}, {len(found)} rows of {commits} commits")
        stands = commits


if __name__ == "__main__":
    with tempfile.TemporaryDirectory() as folder:
        test_runs(os.path.join(folder, "runs"))
        test_kills(os.path.join(folder, "kills"))
    print("the program's runs over real files are as they must be")
