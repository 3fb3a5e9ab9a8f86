#!/usr/bin/env python3
"""Runs sessions of GDB, and compares what they print with what they say.

    python3 gdb/sessions.py PREFIX

PREFIX is the folder that install.sh installed below. Without a GDB of Python 3.10 or later it says that nothing was run. It
runs the session in gdb/values.txt over gdb/values.c, sees that GDB
loads the commands with the library, and compares `capcheck/v` of 10,000 random words with what the program prints of them,
in the file that EXPLAINED names. A session is lines `(gdb) COMMAND`, each with the lines that the command prints after it; a
line `..` stands for any lines. The status is 1 if anything differs."""
import os
import shutil
import subprocess
import sys
import tempfile

HERE = os.path.dirname(os.path.abspath(__file__))
PROMPT = "(gdb) "
# What GDB says of itself.
NOISE = ("[Thread debugging", "Using host libthread_db", "warning: Error disabling address space randomization")
# What GDB prints if it can't call a function of the program: GDB 13 on processors with AMX, and some kernels. What such a
# command should print is left out then.
NO_CALL = "Couldn't write extended state status"


def is_installed():
    """Whether there is a GDB that can run the commands."""
    check = "python import ctypes, sys; sys.exit(sys.version_info < (3, 10))"
    try:
        return subprocess.run(["gdb", "-nx", "-batch", "-ex", check], capture_output=True).returncode == 0
    except FileNotFoundError:
        return False


def transcript(words, session, folder="."):
    """What GDB prints of a session, started by these words: each command with its prompt, then what it prints."""
    given = []
    for line in session:
        if line.startswith(PROMPT):
            given += ["-ex", f"echo {line}\\n", "-ex", line[len(PROMPT):]]
    command = [words[0], "-q", "-nx", "-batch", "-ex", "set width 0", *given, *words[1:]]
    how = {"stdin": subprocess.DEVNULL, "stdout": subprocess.PIPE, "stderr": subprocess.STDOUT, "timeout": 300}
    ran = subprocess.run(command, cwd=folder, **how)
    lines = ran.stdout.decode("utf-8", "replace").rstrip("\n").split("\n")
    left_out.extend(line for line in lines if line.startswith(NO_CALL))
    return [line.rstrip() for line in lines if line.strip() and not line.startswith(NOISE)]


# The commands that GDB didn't carry out, a line each.
left_out = []


def tell_left_out():
    """Says how many commands were left out, if any were."""
    if left_out:
        print(f"left out: sessions of GDB, which can't call functions of a program here, {len(left_out)} times: {left_out[0]}")


def agrees(wanted, given):
    """Whether the lines are those that are wanted, where `..` is any lines."""
    if given and given[0].startswith(NO_CALL):
        after = next((at for at, line in enumerate(wanted) if line.startswith(PROMPT)), len(wanted))
        return agrees(wanted[after:], given[1:])
    if not wanted:
        return not given
    if wanted[0] == "..":
        return any(agrees(wanted[1:], given[at:]) for at in range(len(given) + 1))
    return bool(given) and wanted[0] == given[0] and agrees(wanted[1:], given[1:])


def values(prefix, work):
    """The session over values.c and the judged revoker, linked as docs/GDB.md says. It is left out if GDB can't call functions,
    since what it sets and counts by them is printed later."""
    flags = f'$(PKG_CONFIG_PATH="{prefix}/lib/pkgconfig" pkg-config --cflags --libs capcheck_judge)'
    if not shutil.which("pkg-config"):
        flags = f"-I{prefix}/include -L{prefix}/lib -Wl,-rpath,{prefix}/lib -lcapcheck_judge -lcapcheck_c"
    for source, made in ((f"{HERE}/values.c", "values"), (f"{HERE}/../examples/revoker/revoker.c", "revoker")):
        command = f'{os.environ.get("CC", "cc")} -g -O0 -pthread -DJUDGED "{source}" {flags} -o "{work}/{made}"'
        subprocess.run(command, shell=True, check=True)
    with open(f"{HERE}/values.txt", encoding="utf-8") as file:
        wanted = [line for line in file.read().split("\n") if line]
    sourced = f"{PROMPT}source {prefix}/share/capcheck/capcheck_gdb.py"
    given = transcript(["gdb", f"{work}/values"], [sourced, *wanted], work)[1:]
    return [] if left_out or agrees(wanted, given) else ["gdb/values.txt: the session prints", *given]


def autoload(prefix, work):
    """GDB loads the commands with the library, if it looks where install.sh put their file."""
    folder = f"{prefix}/share/gdb/auto-load"
    before = [f"add-auto-load-scripts-directory {folder}", f"add-auto-load-safe-path {folder}"]
    words = ["gdb", *(word for line in before for word in ("-iex", line)), f"{work}/values"]
    session = ["break main", "run", "capcheck ffff1ffffbffd0000000000000001000"]
    given = transcript(words, [f"{PROMPT}{command}" for command in session])
    return [] if given[-1].endswith("[rwxRW,0x1000-0x1fff]") else ["GDB doesn't load the commands with the library:", *given]


def explained(prefix, work):
    """`capcheck/v` prints of each word what the program prints, after a line of its own."""
    with open(os.environ["EXPLAINED"], encoding="ascii") as file:
        wanted = file.read()
    words = [line[5:] for line in wanted.split("\n") if line.startswith("word ")]
    with open(f"{work}/words.gdb", "w", encoding="ascii") as file:
        file.write(f"source {prefix}/share/capcheck/capcheck_gdb.py\n" + "".join(f"capcheck/v {word}\n" for word in words))
    ran = subprocess.run(["gdb", "-q", "-nx", "-batch", "-x", f"{work}/words.gdb"], capture_output=True, text=True, timeout=600)
    given = "".join(line for line in ran.stdout.splitlines(True) if not line.startswith("- "))
    return [] if given == wanted else [f"capcheck/v of {len(words)} words prints otherwise than `capcheck explain`", ran.stderr[:500]]


def main():
    if not is_installed():
        print("left out: the sessions of GDB, since there is none with Python 3.10 or later")
        return 0
    prefix = os.path.abspath(sys.argv[1])
    with tempfile.TemporaryDirectory() as work:
        wrong = [line for check in (values, autoload, explained) for line in check(prefix, work)]
    tell_left_out()
    print("\n".join(wrong) if wrong else "the sessions print what they say")
    return int(bool(wrong))


if __name__ == "__main__":
    sys.exit(main())
