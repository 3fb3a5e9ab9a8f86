#!/usr/bin/env python3
"""Runs the programs while requests for memory are refused, by a C library's `malloc` in front of it, and compares their
status, their standard output and their line on standard error with what is written here.

    python3 examples/program/refused.py

It needs `cc`. The status is 1 where anything differs."""
import itertools
import os
import subprocess
import sys
import tempfile

HERE = os.path.dirname(os.path.abspath(__file__))
CRATES = os.path.abspath(f"{HERE}/../../crates")

ROOT = "ffff1ffffc0180040000000000000000"
HEADER = f"capcheck 1\nroot c1 {ROOT}\n"
LOG = HEADER + f"sc c1 c1 0\nstore c1 0 1 aa\nlc c3 c1 0 = 0 {ROOT[:30]}aa\nend 3\n"


class Room:
    """A folder with the refusing `malloc`, how many runs there were, and what was otherwise than it is wanted."""

    def __init__(self, folder):
        self.folder, self.count, self.wrong = folder, 0, []
        subprocess.run(["cc", "-shared", "-fPIC", "-O2", "-o", f"{folder}/refuse.so", f"{HERE}/refuse.c"], check=True)

    def put(self, name, text):
        """Writes a file of the folder."""
        with open(f"{self.folder}/{name}", "w", encoding="utf-8") as it:
            it.write(text)

    def run(self, words, refused="", program="capcheck"):
        """What a run with these words gives while requests are refused, with the file `log` for its standard input;
        and how many requests it made."""
        told, tell = os.pipe()
        how = {"LD_PRELOAD": f"{self.folder}/refuse.so", "REFUSED": str(refused), "REPORT": str(tell)}
        with open(f"{self.folder}/log", "rb") as given:
            ran = subprocess.run([f"{CRATES}/{program}/out/{program}", *words], cwd=self.folder, stdin=given, capture_output=True,
                                 env=how, pass_fds=[tell], timeout=60)
        os.close(tell)
        with os.fdopen(told, "rb") as it:
            return (ran.returncode, ran.stdout, ran.stderr), int(it.read() or -1)

    def wants(self, what, given, wanted):
        """Notes whether something is what is wanted."""
        self.count += 1
        if given != wanted:
            self.wrong.append(f"{what}\n  gives  {given}\n  wanted {wanted}")

    def each(self, words, wanted, program="capcheck", spare=False, before=(b"",)):
        """Refuses each request of a run in turn, alone and with all later ones, until none is reached. If a run has requests
        to spare, which ask for more than it needs, one that is refused alone may make no difference. A run of several files may
        have written what it says of those before, and of all: then `before` has each text that it may have written."""
        lacks = [(3, text, f"{program}: no memory\n".encode()) for text in before]
        for number in itertools.count(1):
            ran, made = self.run(words, number, program)
            if made < number:
                self.wants(f"{words}, no request refused", ran, wanted)
                return
            self.wants(f"{words}, request {number} refused", ran, wanted if spare and ran == wanted else ran if ran in lacks else lacks)
            ran = self.run(words, f"{number}+", program)[0]
            self.wants(f"{words}, request {number} and all later ones refused", ran, ran if ran in lacks else lacks)


def each_request(room):
    """Each request of a judge, and of what only answers words, is refused in turn."""
    room.put("log", LOG)
    judges = [("capcheck", it) for it in (["judge"], ["judge", "--origins"], ["judge", "log"])]
    for program, words in [*judges, *[("capdiag", it) for it in (["why"], ["why", "--origins"], ["why", "log"])]]:
        wanted = room.run(words, program=program)[0]
        room.wants(f"{words}, its verdict", (wanted[0], wanted[1][:8], wanted[2]), (0, b"yes 3 1\n", b""))
        room.each(words, wanted, program, spare=True)
    for words in (["round", "0000000000000001", "0000000000001fff"], ["explain", ROOT], ["vectors", "log"], ["judges"], []):
        room.each(words, room.run(words)[0])
    for words in (["judge"], ["why", "--origins", "--json"]):
        room.each(words, room.run(words, program="capdiag")[0], "capdiag", spare=True)


def each_object(room):
    """Each request of the judge of an allocator's log is refused in turn."""
    lines = [f"malloc {64 * number:016x} {number % 3:016x}\n" for number in range(200)]
    room.put("log", f"heap 1\nroot {0:016x} {1 << 64:017x}\n" + "".join(lines) + "end 200\n")
    for words in (["heap"], ["heap", "--report"]):
        wanted = room.run(words, program="capdiag")[0]
        room.wants(f"{words}, its verdict", (wanted[0], wanted[1][:12], wanted[2]), (0, b"yes 200 200\n", b""))
        room.each(words, wanted, "capdiag")


def run_log(objects):
    """The lines of a run log of two harts that hands out objects of 64 bytes, each with a copy in a page of its own; each second one is freed,
    and its copies lose their tags."""
    lines = ["run 1\n", "mode strict\n", f"root c1 {ROOT}\n", "hart 1\n", f"root c1 {ROOT}\n", "hart 0\n"]
    for number in range(1, objects + 1):
        address, there = 0x1000 + 0x100 * number, f"{0x100000 * number:016x}"
        word = f"{0xffff << 48 | 0x3ffff << 27 | (address + 64) % 2**12 << 14 | address % 2**14:016x}{address:016x}"
        lines += [f"setaddr c2 c1 {address:016x} = 1 {ROOT[:16]}{address:016x}\n", f"setbounds c2 c2 0000000000000040 = 1 {word}\n",
                  "object c2\n", f"setaddr c3 c1 {there} = 1 {ROOT[:16]}{there}\n", "sc c2 c3 0\n"]
        if number % 2:
            lines += ["free c2\n", "drop c2\n", f"drop @{there}\n"]
    return lines


def each_run(room):
    """Each request of the judge of run logs is refused in turn: of an accepted log, of a rejected one, and of several files."""
    lines = run_log(9)
    accepted, rejected = [*lines, f"end {len(lines) - 6}\n"], [*lines, "object c1\n", "object c3\n"]
    for log, orders in (accepted, (["run"], ["run", "log"], ["run", "--owners"], ["run", "--freed", "both", "--owned"], ["why"], ["why", "log"])), \
                       (rejected, (["run"], ["run", "--why"], ["run", "--why", "--json"], ["run", "--why", "--context", "3"], ["why"],
                                   ["why", "--json", "--context", "3", "log"])):
        room.put("log", "".join(log))
        for words in orders:
            wanted = room.run(words, program="capdiag")[0]
            room.wants(f"{words}, its status", (wanted[0], wanted[2]), (0 if log is accepted else 1, b""))
            room.each(words, wanted, "capdiag", spare=True)
    room.put("other", "".join(accepted))
    for words in (["run", "--owners", "other", "log"], ["run", "--why", "log", "other"], ["why", "--context", "2", "other", "log"]):
        wanted, told = room.run(words, program="capdiag")[0], room.run(words[:-1], program="capdiag")[0][1]
        name = f"file {words[-2]}\n".encode()
        first = next(text for text in (told.replace(b"\n", b"\n" + name, 1), told) if wanted[1].startswith(text))
        room.each(words, wanted, "capdiag", spare=True, before=(b"", first, wanted[1]))


def each_page(room):
    """Each request of a log that fills 65,536 granules of 256 pages is refused in turn."""
    lines = [HEADER]
    for page in range(256):
        address = f"{4096 * page + 2048:016x}"
        lines.append(f"setaddr c2 c1 {address} = 1 ffff1ffffc018004{address}\n")
        lines += [f"store c2 {16 * granule - 2048} 1 00\n" for granule in range(256)]
    room.put("log", "".join([*lines, "end 65792\n"]))
    room.each(["judge"], (0, b"yes 65792 1\n", b""), spare=True)


def steps(room):
    """A step that names no granule makes no request."""
    room.put("log", HEADER + "end 0\n")
    without = room.run(["judge"])
    room.put("log", HEADER + f"move c2 c1 = 1 {ROOT}\n" * 100000 + "end 100000\n")
    room.wants("requests of 100,000 moves", room.run(["judge"]), ((0, b"yes 100000 1\n", b""), without[1]))


def page(room):
    """A put into a page that is there makes no request: it is taken where each later one is refused."""
    middle = f"setaddr c2 c1 {2048:016x} = 1 ffff1ffffc018004{2048:016x}\n"
    first = "store c2 -2048 1 00\n"
    room.put("log", HEADER + middle + first + "end 2\n")
    requests = room.run(["judge"])[1]
    puts = [form.format(16 * granule - 2048) for granule in range(1, 256) for form in ("store c2 {} 1 00\n", "sc c1 c2 {}\n")]
    for several in [*([it] for it in puts), puts, puts[::-1]]:
        room.put("log", HEADER + middle + first + "".join(several) + f"end {2 + len(several)}\n")
        said = f"yes {2 + len(several)} 1\n".encode()
        room.wants(f"a page that is there, then {several[0]}", room.run(["judge"], f"{requests + 1}+"), ((0, said, b""), requests))


def main():
    with tempfile.TemporaryDirectory() as folder:
        room = Room(folder)
        for part in (each_request, each_object, each_run, each_page, steps, page):
            part(room)
    print("\n".join([*room.wrong, f"{room.count} answers where memory was refused, {len(room.wrong)} otherwise than is wanted"]))
    return 1 if room.wrong else 0


if __name__ == "__main__":
    sys.exit(main())
