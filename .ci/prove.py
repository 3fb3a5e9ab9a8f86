#!/usr/bin/env python3
"""Proves crates and all that they stand on, side by side, and builds them.

    python3 .ci/prove.py CRATE..

Each crate is proved by the call of the kit's `rattle` with which `rt ci` proves it, from nothing, over what the
libraries below it state. It begins as soon as those are proved; the crate with the longest chain above it gets all
processors, and each other one. The first crate named goes first, with those below it: the others are proved at the lowest
priority beside them. What this script proved before from the same text by the same kit isn't proved again.
A line says when a crate is proved, how many are left and how long it took, and at least once a minute what is under
way. A crate that isn't proved stops it: the prover's words stand in the crate's out/prove.txt, and are shown."""
import hashlib
import os
import re
import shutil
import subprocess
import sys
import threading
import time

TOP = os.path.dirname(os.path.dirname(os.path.abspath(__file__)))
KIT = os.path.dirname(subprocess.run(["rt", "doc"], capture_output=True, text=True, check=True).stdout.strip())
ROWS = {name: (bool(static), uses.split()) for name, static, uses in re.findall(r"(?m)^(\w+)( staticlib)?:(.*)$", open(f"{TOP}/crates.txt").read())}
LINK = ["--target", "x86_64-unknown-linux-gnu", "--toolchain", f"{KIT}/toolchain"]


class Crate:
    """A crate of the repository, with those that it stands on."""

    known = {}

    def __init__(self, name):
        self.is_static, uses = ROWS[name]
        self.name, self.folder = name, f"{TOP}/crates/{name}"
        self.uses = [Crate.of(it) for it in uses if it in ROWS]
        self.of_kit = ["std", *[it for it in uses if it not in ROWS]]
        self.below = list(dict.fromkeys(it for use in self.uses for it in [*use.below, use]))
        self.is_program = os.path.isfile(f"{self.folder}/src/main.rt")
        self.out = f"{self.folder}/out"
        self.made = f"{self.out}/{name}" if self.is_program else f"{self.out}/lib{name}.a" if self.is_static else f"{self.out}/rlib/{name}.rlib"
        self.texts = []
        for part in ("src", "specs", "proofs"):
            for at, _, names in os.walk(f"{self.folder}/{part}"):
                self.texts += [os.path.join(at, it) for it in names]
        self.lines = sum(open(it, "rb").read().count(b"\n") for it in self.texts if it.endswith(".rt"))
        self.chain = self.lines

    @classmethod
    def of(cls, name):
        if name not in cls.known:
            cls.known[name] = cls(name)
        return cls.known[name]

    def sum(self):
        """Of all that it is made of: the kit, its text, and the libraries below."""
        found = hashlib.sha256(open(f"{KIT}/KIT-ID", "rb").read() + repr(self.of_kit).encode())
        for it in sorted(self.texts):
            found.update(os.path.relpath(it, self.folder).encode() + b"\0" + open(it, "rb").read() + b"\0")
        for it in self.uses:
            found.update(it.sum().encode())
        return found.hexdigest()

    def is_proved(self):
        kept = f"{self.out}/prove.sum"
        return os.path.exists(self.made) and os.path.isfile(kept) and open(kept).read() == self.sum()

    def words(self, jobs):
        """The words with which the kit's prover is called."""
        words = ["--crate-name", self.name, f"src/{'main' if self.is_program else 'lib'}.rt", "-L", f"dependency={KIT}/rlibs"]
        for it in self.of_kit:
            words += ["--extern", f"{it}={KIT}/rlibs/{it}.rlib"]
        for it in self.uses:
            words += ["--extern", f"{it.name}={it.made}"]
        for it in self.below:
            words += ["-L", f"dependency={it.out}/rlib"]
        words += ["--antt-project", f"{KIT}/rattle/logic/antt-project.json", "--logic-built", f"{KIT}/logic_built"]
        words += ["--links", f"{self.name}=", "--jobs", str(jobs)]
        if self.is_program or self.is_static:
            words += ["--crate-type", "staticlib"] * self.is_static + ["--toolchain", f"{KIT}/toolchain", "--backend", "llvm"]
            return [*words, "-o", f"{self.made}.o" if self.is_program else self.made]
        return [*words, "--statements", "-o", self.made]

    def prove(self, jobs, goes_first=True):
        """Whether it was proved, and linked where it is a program."""
        shutil.rmtree(f"{self.out}/rlib", ignore_errors=True)
        os.makedirs(os.path.dirname(self.made), exist_ok=True)
        for it in (f"{self.out}/prove.sum", self.made):
            if os.path.isfile(it):
                os.remove(it)
        before = self.sum()
        with open(f"{self.out}/prove.txt", "w+", encoding="utf-8", errors="replace") as log:
            how = {"cwd": self.folder, "stdin": subprocess.DEVNULL, "stdout": log, "stderr": subprocess.STDOUT}
            nice = [] if goes_first else ["nice", "-n", "19"]
            status = subprocess.run([*nice, f"{KIT}/bin/rattle", "build", *self.words(jobs)], **how).returncode
            if not status and self.is_program:
                link = [*LINK, "-o", self.made, f"{self.made}.o", f"{KIT}/c/libos_c.a", f"{KIT}/c/liblibc_c.a"]
                status = subprocess.run([f"{KIT}/bin/rattle-link", *link], **how).returncode
            log.seek(0)
            proved = not status and re.search(r"(?m)^logic=proved ", log.read()) and before == self.sum()
        if proved:
            with open(f"{self.out}/prove.sum", "w") as it:
                it.write(before)
        return bool(proved)


def main(names):
    cores = len(os.sched_getaffinity(0))
    for name in names:
        Crate.of(name)
    crates = [*Crate.known.values()]
    done = [it for it in crates if it.is_proved()]
    left = [it for it in crates if it not in done]
    for it in reversed(crates):
        for use in it.uses:
            use.chain = max(use.chain, use.lines + it.chain)
    first = [Crate.of(names[0]), *Crate.of(names[0]).below]
    left.sort(key=lambda it: (it not in first, -it.chain))
    began, running, failed, turn = time.time(), {}, [], threading.Condition()

    def say(text):
        print(f"{time.time() - began:4.0f} s  {text}", flush=True)

    def work(crate, jobs):
        at = time.time()
        is_proved = crate.prove(jobs, crate in first)
        with turn:
            del running[crate]
            (done if is_proved else failed).append(crate)
            took = f"{time.time() - at:.0f} s, {len(left) + len(running)} left"
            say(f"{crate.name} is proved ({took})" if is_proved else f"{crate.name} is NOT PROVED")
            turn.notify_all()

    with turn:
        while running or (left and not failed):
            ready = [it for it in left if not failed and all(use in done for use in it.uses)]
            for crate in ready:
                before = [jobs for it, jobs in running.items() if it in first or crate not in first]
                if len(before) >= cores:
                    break
                jobs = 1 if max(before, default=1) > 1 else cores
                left.remove(crate)
                running[crate] = jobs
                threading.Thread(target=work, args=(crate, jobs)).start()
            if not turn.wait(60):
                say(f"proving {', '.join(it.name for it in running)}")
    for crate in failed:
        print(open(f"{crate.out}/prove.txt", encoding="utf-8", errors="replace").read())
    return 1 if failed else 0


if __name__ == "__main__":
    sys.exit(main(sys.argv[1:]))
