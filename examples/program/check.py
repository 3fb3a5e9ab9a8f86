#!/usr/bin/env python3
"""Runs both programs, and compares their status, their standard output and their line on standard error with what is
worked by hand: for capcheck the rows of src/rows.rt in its crate, for capdiag those of capdiag.rows and of wrong.rows,
which are wrong logs and wrong words, and where their input or their output fails.

    python3 examples/program/check.py [PROGRAM..]

CAPCHECK and CAPDIAG name built programs, where these are not those of `rt ci`. The status is 1 where anything differs."""
import ctypes
import os
import pty
import re
import resource
import shlex
import socket
import subprocess
import sys
import tempfile
import time

ROOT = os.path.join(os.path.dirname(os.path.abspath(__file__)), "../..")

YES, NO = b"capcheck 1\nend 0\n", b"capcheck 1\nend 1\n"
SAID_YES, SAID_NO = b"yes 0 0\n", b"no 2 6 WrongCount\n"
VECTOR = b"memory 00001ffffc0180040000000000000000 = 00000000000000000000000000000000\n"

# Of each program the word that judges, what it prints after a no, the orders that read no input of their own, and the
# words that have none of its forms.
PROGRAMS = {
    "capcheck": ("judge", SAID_NO, [["vectors", "file"], ["round", "0000000000000001", "0000000000001fff"],
                                    ["explain", "00001ffffc0180040000000000000000"]], ["judges"]),
    "capdiag": ("why", SAID_NO + b"line end 1\nroots 0\nsteps 0\ngranules 0\nexpected end 0\n", [["heap"], ["heap", "--report", "log"], ["why", "log", "log"]], ["judge"]),
}


def obey_modes():
    """From the next exec on, a process of root too opens only the files whose mode lets it: its bounding set of
    capabilities loses CAP_DAC_OVERRIDE and CAP_DAC_READ_SEARCH."""
    if os.geteuid() == 0:
        for capability in (1, 2):
            ctypes.CDLL(None).prctl(24, capability, 0, 0, 0)


class Room:
    """A folder in which a program runs, how many runs there were, and what was otherwise than it is wanted."""

    def __init__(self, folder, program):
        self.folder, self.count, self.wrong, self.program = folder, 0, [], program
        judge, self.said_no, shown, self.bad_words = PROGRAMS[program]
        self.judge = [[judge], [judge, "--origins"]]
        self.orders = [*self.judge, [judge, "log"], *shown]
        self.inputs = [*self.judge, *[it[:1] for it in shown if it[1:] == ["file"]]]

    def fault(self, text):
        """The line of a fault."""
        return f"{self.program}: {text}\n".encode()

    def put(self, name, text):
        """Writes a file of the folder, and gives its path."""
        with open(f"{self.folder}/{name}", "wb") as it:
            it.write(text)
        return f"{self.folder}/{name}"

    def run(self, words, given=subprocess.DEVNULL, out=subprocess.PIPE, err=subprocess.PIPE, closed=(), room=None, obeys=False, env=None):
        """What a run with these words gives: its status, and what it wrote where no other place is named. Standard
        input is a file, a socket or bytes. The descriptors that are `closed` are not there at its start, and with
        `room` no file may grow above so many bytes. One that `obeys` opens only files whose mode lets it."""

        def prepare():
            if obeys:
                obey_modes()
            for number in closed:
                os.close(number)
            if room is not None:
                resource.setrlimit(resource.RLIMIT_FSIZE, (room, room))

        how = {"input": given} if isinstance(given, bytes) else {"stdin": given}
        # At a limit Python's own signals stay: a write above it is then an error, and no signal that ends the program.
        how.update(preexec_fn=prepare, restore_signals=room is None, timeout=60, env=env)
        file = os.environ.get(self.program.upper()) or f"crates/{self.program}/out/{self.program}"
        ran = subprocess.run([os.path.join(os.path.abspath(ROOT), file), *words], cwd=self.folder, stdout=out, stderr=err, **how)
        return ran.returncode, ran.stdout, ran.stderr

    def wants(self, what, ran, wanted):
        """Notes whether a run gave what is wanted."""
        self.count += 1
        if ran != wanted:
            self.wrong.append(f"{self.program} {what}\n  gives  {ran}\n  wanted {wanted}")


def packets(text, ends):
    """A socket that gives one byte a read, and then its end, or an error where it doesn't end."""
    own, other = socket.socketpair(socket.AF_UNIX, socket.SOCK_SEQPACKET)
    for byte in text:
        other.send(bytes([byte]))
    if ends:
        other.close()
    else:
        own.setblocking(False)
    return own, other


def broken(text):
    """A socket that gives the bytes, and then the error of a writer that broke off."""
    own, other = socket.socketpair()
    other.send(text)
    own.send(b"unread")
    other.close()
    return own, other


def full_pipe():
    """A pipe that takes no more bytes, and says so in place of waiting."""
    given, other = os.pipe()
    os.set_blocking(other, False)
    try:
        while True:
            os.write(other, bytes(65536))
    except BlockingIOError:
        return given, other


def source(path):
    """The text of a file of the repository."""
    with open(f"{ROOT}/{path}", encoding="utf-8") as it:
        return it.read()


def rows(text):
    """The rows of a text: for each the words of its runs with their status, the input, and what is printed."""
    for row in text.split("\n\n"):
        lines = [it for it in row.split("\n") if it and it[0] != "#"]
        runs = [(int(it[0]), shlex.split(it[1:])) for it in lines if it[0].isdigit()]
        out, err = ("".join(f"{it[2:]}\n" for it in lines if it[0] == mark).encode() for mark in "=!")
        if runs:
            yield runs, b"".join(given(it) for it in lines if it[0] in "|_"), out, err


def given(line):
    """The bytes of a line of input after `|`, or after `_` where it has no line feed. A backslash begins an escape."""
    text = line[2:].encode("latin-1").decode("unicode_escape").encode("latin-1")
    return text + b"\n" if line[0] == "|" else text


def unfolded(text):
    """The rows of a text, with a line of its own for each that ` / ` joins."""
    return "\n".join(line.replace(" / ", "\n" + line[:2]) for line in text.split("\n"))


def agrees(text, wanted):
    """Whether a text is the one that is wanted, where a line `..` stands for any lines."""
    return re.fullmatch(b"(?s:.*)".join(re.escape(it) for it in wanted.split(b"..\n")), text)


def printed(room):
    """What is printed for the words and the input of each row."""
    if room.program == "capcheck":
        text = unfolded(re.search(r'(?s)r#"\n(.*)"#;', source("crates/capcheck/src/rows.rt"))[1])
    else:
        text = unfolded(source("examples/program/capdiag.rows")) + "\n\n" + source("examples/program/wrong.rows")
    for runs, given, out, err in rows(text):
        room.put("log", given)
        room.put("file", given)
        for status, words in runs:
            ran = room.run(words, given)
            room.wants(words, ran, (status, ran[1] if agrees(ran[1], out) else out, err))
    room.wants("a word that isn't UTF-8", room.run([room.judge[0][0].encode(), b"\xff"], YES), (2, b"", room.fault("bad words")))


def inputs(room):
    """An input that fails behind each of its bytes, one that ends there, and what can't be read at all."""
    fault = (3, b"", room.fault("read fault"))
    for count in range(len(YES) + 1):
        for words in room.judge:
            for what, (own, other) in (("failing", packets(YES[:count], False)), ("breaking off", broken(YES[:count]))):
                with own, other:
                    room.wants(f"{words}, {what} behind {count} bytes", room.run(words, own), fault)
        for words in room.judge:
            line = 1 if count <= YES.index(b"\n") else 2
            own, other = packets(YES[:count], True)
            with own:
                status, out, err = room.run(words, own)
            ran = (status, out[: out.index(b"\n") + 1], err)
            cut = (1, f"no {line} 5 Truncated\n".encode(), b"")
            room.wants(f"{words}, ending behind {count} bytes", ran, (0, SAID_YES, b"") if count == len(YES) else cut)
    folder = os.open(room.folder, os.O_RDONLY)
    for words in room.judge:
        room.wants(f"{words}, a folder", room.run(words, folder), fault)
        room.wants(f"{words}, a closed input", room.run(words, closed=[0]), fault)
    os.close(folder)
    for words in room.inputs:
        # capdiag names the folder.
        told = fault if room.program == "capcheck" else (3, b"", room.fault("cannot open '.': is a directory"))
        room.wants(f"{words}, a folder by its name", room.run([*words, "."]), told)


def unopened(room):
    """A file that is there and may not be read, and one that can't be opened for another reason."""
    os.chmod(room.put("locked", YES), 0)
    room.put("log", YES)
    os.symlink("round", f"{room.folder}/round")
    reasons = [("gone", "no such file"), ("log/log", "a part of the path is a file"), (".", "is a directory"),
               ("round", "a circle of symbolic links"), ("locked", "permission denied")]
    if subprocess.run(["cat", f"{room.folder}/locked"], preexec_fn=obey_modes, capture_output=True).returncode == 0:
        print(f"left out: {room.program} on a file that may not be read, since here every file may be", file=sys.stderr)
        reasons.pop()
    for words in room.inputs:
        for name, why in reasons:
            line = f"cannot open '{name}': {why}" if room.program == "capdiag" else "read fault"
            room.wants(f"{words}, {name}", room.run([*words, name], obeys=True), (3, b"", room.fault(line)))


def verdicts(room):
    """A no comes while the input stays open, and where it fails behind the first fault."""
    for words in room.judge:
        given, other = os.pipe()
        os.write(other, NO)
        room.wants(f"{words}, a pipe that stays open", room.run(words, given), (1, room.said_no, b""))
        os.close(given)
        os.close(other)
        for what, (own, other) in (("failing", packets(NO, False)), ("breaking off", broken(NO))):
            with own, other:
                room.wants(f"{words}, {what} behind the first fault", room.run(words, own), (1, room.said_no, b""))


def several(room):
    """Several files get a verdict each, and the status is the greatest, whichever file it is of. Then standard error counts them,
    unless a fault came before. Standard input is one of them, and a file that can't be read is named."""
    if room.program != "capdiag":
        return
    shown = {"good": SAID_YES, "bad": room.said_no, "-": SAID_YES}
    for name, text in (("good", YES), ("bad", NO), ("cut", YES[:-1])):
        room.put(name, text)
    shown["cut"] = room.run(["why", "cut"])[1]
    room.wants("why cut", shown["cut"].partition(b"\n")[0], b"no 2 5 Truncated")
    unreadable = "/proc/self/mem"
    for names, status, counts in (
        (["bad", "good"], 1, "1 accepted, 1 rejected: 1 WrongCount"),
        (["good", "bad"], 1, "1 accepted, 1 rejected: 1 WrongCount"),
        (["bad", "gone", "good"], 3, "1 accepted, 1 rejected: 1 WrongCount; 1 not opened"),
        (["gone", "good"], 3, "1 accepted, 0 rejected; 1 not opened"),
        (["gone", "gone"], 3, "0 accepted, 0 rejected; 2 not opened"),
        (["good", "good"], 0, "2 accepted, 0 rejected"),
        (["bad", "cut", "-", "bad", "cut", "bad"], 1, "1 accepted, 5 rejected: 3 WrongCount, 2 Truncated"),
        (["bad", unreadable, "good"], 3, None),
        ([unreadable], 3, None),
    ):
        heard = names[:names.index(unreadable)] if unreadable in names else names
        err = b"".join(room.fault("cannot open 'gone': no such file") for it in names if it == "gone")
        err += room.fault(counts) if counts else room.fault(f"'{unreadable}': read fault")
        judged = [it for it in heard if it != "gone"]
        out = b"".join(shown[it].replace(b"\n", f"\nfile {it}\n".encode(), 1) for it in judged)
        room.wants(f"why {names}", room.run(["why", *names], YES), (status, out, err))
        objects = b"".join(room.run(["why", "--json", it], YES)[1] for it in heard)
        room.wants(f"why --json {names}", room.run(["why", "--json", *names], YES), (status, objects, err))
    room.wants("why - of an input that fails", room.run(["why", "-"], os.open(room.folder, os.O_RDONLY)), (3, b"", room.fault("'-': read fault")))
    many = room.run(["why", *["good", "bad"] * 5000])
    room.wants("why of 10,000 files", (many[0], many[1].count(b"\nfile "), many[2]), (1, 10000, room.fault("5000 accepted, 5000 rejected: 5000 WrongCount")))


def contexts(room):
    """capdiag keeps of a log of any length what its context needs: in memory that doesn't grow, the last lines, and the last that
    wrote each register, which came long before."""
    if room.program != "capdiag":
        return
    root, word = "root c1 ffff1ffffc0180040000000000000000", "= 1 ffff1ffffc0180040000000000000000"
    faulty = "seal c9 c31 c1 = 1 ffff1ffffc0180040000000000000000"
    for many in (0, 1, 100, 681, 682, 683, 1365, 3000, 300000):
        lines = ["capcheck 1", root, f"move c31 c1 {word}", *(f"move c{2 + number % 29} c1 {word}" for number in range(many))]
        log, at = "\n".join([*lines, faulty, "end 0", ""]).encode(), len(lines) + 1
        for count in (0, 3, 99):
            shown = [f"before {number} {lines[number - 1]}" for number in range(max(1, at - count), at)]
            shown += [f"wrote c31 3 move c31 c1 {word}", f"wrote c1 2 {root}"]
            ran = room.run(["why", "--context", str(count)], log)
            told = ran[1].decode().split("\n")
            own = [line for line in told if line.startswith(("before ", "wrote "))]
            room.wants(f"--context {count} after {many} steps", (ran[0], told[0].split()[:3], own), (1, ["no", str(at), told[0].split()[2]], shown))


def outputs(room):
    """Standard output that is full, that fills up, that is busy, that nobody reads any more, and that is closed."""
    fault = (3, None, room.fault("write fault"))
    with open("/dev/full", "wb") as full:
        for given in (YES, NO, VECTOR):
            room.put("log", given)
            room.put("file", given)
            for words in room.orders:
                room.wants(f"{words}, a full output", room.run(words, given, full), fault)
    for left in range(len(SAID_YES) + 1):
        for words in room.judge:
            with open(room.put("out", b""), "r+b") as out:
                ran = room.run(words, YES, out, room=left)
                out.seek(0)
                wanted = fault if left < len(SAID_YES) else (0, None, b"")
                room.wants(f"{words}, room for {left} bytes", (*ran, out.read()), (*wanted, SAID_YES[:left]))
    busy, gone = full_pipe(), os.pipe()
    os.close(gone[0])
    for words in room.orders:
        room.wants(f"{words}, a pipe that takes no more", room.run(words, YES, busy[1]), fault)
        room.wants(f"{words}, a pipe without a reader", room.run(words, YES, gone[1]), fault)
        room.wants(f"{words}, a closed output", room.run(words, YES, closed=[1]), (3, b"", room.fault("write fault")))
    for it in (*busy, gone[1]):
        os.close(it)


def errors(room):
    """A standard error that is full or closed changes nothing else."""
    with open("/dev/full", "wb") as full:
        judge = room.judge[0]
        for words, given, out, status in ((room.bad_words, YES, b"", 2), ([*judge, "gone"], YES, b"", 3), (judge, NO, room.said_no, 1)):
            room.wants(f"{words}, a full standard error", room.run(words, given, err=full), (status, out, None))
            room.wants(f"{words}, a closed standard error", room.run(words, given, closed=[2]), (status, out, b""))
        room.wants("both full", room.run(judge, YES, full, full), (3, None, None))


def written(terminal):
    """All that a program wrote to a terminal whose other end is closed, with line feeds alone."""
    text = b""
    try:
        while piece := os.read(terminal, 4096):
            text += piece
    except OSError:
        pass
    os.close(terminal)
    return text.replace(b"\r\n", b"\n")


def terminals(room):
    """A verdict has its color on a terminal, unless the environment or --json forbids it."""
    if room.program != "capdiag":
        return
    try:
        for end in pty.openpty():
            os.close(end)
    except OSError:
        print(f"left out: {room.program} on a terminal, since the system has no pseudo terminals", file=sys.stderr)
        return
    for given, plain, shown in ((YES, SAID_YES, b"\x1b[32myes 0 0\x1b[0m\n"), (NO, room.said_no, b"\x1b[31mno 2 6 WrongCount\x1b[0m\n")):
        shown += plain.partition(b"\n")[2]
        room.put("log", given)
        json = room.run(["why", "--json", "log"])[1]
        for names, words, wanted in (({}, [], shown), ({"NO_COLOR": ""}, [], shown), ({"NO_COLOR": "1"}, [], plain), ({"TERM": "dumb"}, [], plain),
                                     ({"TERM": None}, [], plain), ({}, ["--json"], json)):
            environment = {name: it for name, it in {**os.environ, "TERM": "xterm", "NO_COLOR": None, **names}.items() if it is not None}
            ours, theirs = pty.openpty()
            status, out, err = room.run(["why", *words, "log"], out=theirs, env=environment)
            os.close(theirs)
            room.wants(f"why {words}, {names}, on a terminal", (status, written(ours), err), (int(given == NO), wanted, b""))
    ours, theirs = pty.openpty()
    os.write(ours, YES + b"\x04")
    told = b"capdiag: reading a log from the terminal; Ctrl-D ends it\n"
    room.wants("why, typed on a terminal", room.run(["why"], theirs), (0, SAID_YES, told))
    os.close(ours)
    os.close(theirs)


def fed(room, words, pieces, pause, out=subprocess.PIPE, err=subprocess.PIPE):
    """What a run gives whose input comes in pieces, with a pause of so many seconds after each."""
    given, other = os.pipe()
    program = os.environ.get(room.program.upper()) or f"crates/{room.program}/out/{room.program}"
    environment = {**os.environ, "TERM": "xterm", "NO_COLOR": "1"}
    with subprocess.Popen([os.path.join(os.path.abspath(ROOT), program), *words], cwd=room.folder, stdin=given, stdout=out, stderr=err, env=environment) as ran:
        os.close(given)
        for piece in pieces:
            os.write(other, piece)
            time.sleep(pause)
        os.close(other)
        return (ran.wait(), *(it.read() if it else None for it in (ran.stdout, ran.stderr)))


def progresses(room):
    """How far the reading is: on a terminal by itself after two seconds, cleared before the verdict; elsewhere only if it is asked for. An
    object of JSON comes as soon as its file was judged."""
    if room.program != "capdiag":
        return
    steps = 8
    pieces = [b"capcheck 1\nroot c1 ffff1ffffc0180040000000000000000\n", *[b"move c2 c1 = 1 ffff1ffffc0180040000000000000000\n"] * steps]
    yes, no = [*pieces, b"end 8\n"], [*pieces, b"end 9\n"]
    said_yes, said_no = b"yes 8 1\n", b"no 11 6 WrongCount\n"
    line = rb"capdiag: (%s)\d+ [kM]B( of \d+ kB)?, \d+ lines, \d+ [kM]B/s(, \d+ s left)?"
    drawn = rb"(\r%s\x1b\[K)+\r\x1b\[K" % line
    for pieces, said, status in ((yes, said_yes, 0), (no, said_no, 1)):
        for words, pause, told in ((["why"], 0.3, True), (["why", "--progress"], 0.1, True), (["why"], 0.02, False), (["why", "--json"], 0.3, True),
                                   (["why", "-", "gone"], 0.3, True)):
            ours, theirs = pty.openpty()
            ran = fed(room, words, pieces, pause, err=theirs)
            os.close(theirs)
            text = written(ours)
            name = b"'-': " if "gone" in words else b""
            shown = re.match(drawn % name, text) if told else re.match(b"", text)
            room.wants(f"{words}, in pieces each {pause} s, on a terminal", (ran[0], bool(shown), text.count(b"capdiag: ") > 0), (3 if name else status, True, told or bool(name)))
            rest = text[shown.end():] if shown else text
            counted = b"capdiag: 1 accepted, 0 rejected; 1 not opened\n" if status == 0 else b"capdiag: 0 accepted, 1 rejected: 1 WrongCount; 1 not opened\n"
            room.wants(f"{words}, what stays on the terminal", rest, b"capdiag: cannot open 'gone': no such file\n" + counted if name else b"")
            if "--json" not in words:
                room.wants(f"{words}, in pieces each {pause} s", ran[1].partition(b"\n")[0] + b"\n", said)
    ran = fed(room, ["why"], yes, 0.3)
    room.wants("why, in pieces, elsewhere", ran, (0, said_yes, b""))
    ran = fed(room, ["why", "--progress"], yes, 0.7)
    room.wants("why --progress, in pieces, elsewhere", (*ran[:2], bool(re.fullmatch(line % b"" + b"\n", ran[2]))), (0, said_yes, True))
    room.put("good", YES)
    given, other = os.pipe()
    ours, theirs = os.pipe()
    program = os.environ.get("CAPDIAG") or "crates/capdiag/out/capdiag"
    with subprocess.Popen([os.path.join(os.path.abspath(ROOT), program), "why", "--json", "good", "-"], cwd=room.folder, stdin=given, stdout=theirs,
                          stderr=subprocess.PIPE) as ran:
        os.close(given)
        os.close(theirs)
        early = os.read(ours, 4096)
        os.write(other, NO)
        os.close(other)
        room.wants("why --json good -, before the second log is there", early, room.run(["why", "--json", "good"])[1])
        room.wants("why --json good -, its second object", os.read(ours, 4096).count(b"\n"), 1)
        os.close(ours)
        room.wants("why --json good -", (ran.wait(), ran.stderr.read()), (1, room.fault("1 accepted, 1 rejected: 1 WrongCount")))


def main(programs):
    wrong = []
    for program in programs or PROGRAMS:
        with tempfile.TemporaryDirectory() as folder:
            room = Room(folder, program)
            for part in (printed, inputs, unopened, verdicts, several, contexts, outputs, errors, terminals, progresses):
                part(room)
        print("\n".join([*room.wrong, f"{room.count} runs of {program}, {len(room.wrong)} otherwise than is wanted"]))
        wrong += room.wrong
    return 1 if wrong else 0


if __name__ == "__main__":
    sys.exit(main(sys.argv[1:]))
