#!/usr/bin/env python3
"""Compares the C headers with the Python package: each call with its arguments and result, each struct with its fields and
its layout, each constant; and what the shared libraries export with what the headers declare.

    python3 python/abi_check.py PREFIX

PREFIX is the folder that install.sh installed below. It needs a C compiler (CC, or cc) and NM, or nm. A line says what
differs. The last line is `N compared, M differ`, and the status is 1 if anything differs."""
import ctypes as c
import os
import re
import subprocess
import sys
import tempfile
from pathlib import Path

PREFIX = Path(sys.argv[1])
os.environ["CAPCHECK_LIB"] = str(PREFIX / "lib")
sys.path.insert(0, str(Path(__file__).resolve().parent))
from capcheck import _abi, judges, lines, runs, words  # noqa: E402

# The headers, and the libraries in which the package calls what they declare.
HEADERS = {"capcheck": [_abi.words], "capcheck_answer": [], "capcheck_judge": [_abi.judges, _abi.whole_logs],
           "capcheck_freestanding": [_abi.freestanding], "capcheck_recorder": [_abi.recorders]}
LIBRARIES = {"capcheck": "capcheck_c", **{it: it for it in ("capcheck_judge", "capcheck_freestanding", "capcheck_recorder")}}
# What the package doesn't need, and why.
LEFT_OUT = {
    "capcheck_text_of": "Python writes the digits", "capcheck_word_text": "capcheck_text_of",
    "capcheck_judge_memory": "the judge uses malloc", "capcheck_judge_bytes_in": "capcheck_judge_bytes",
    "capcheck_judge_report": "capcheck_judge_end_report", "capcheck_judge_text": "capcheck_judge_end_report",
    "CAPCHECK_VERSION": "capcheck_version", "CAPCHECK_NOT_REFUSED": "no Refusal", "CAPCHECK_KIND_NONE": "no Kind",
    "CAPCHECK_EXPECTS_NOTHING": "None", "CAPCHECK_OTYPE_GREATEST": "capcheck_seal",
    "capcheck_run_judge_report": "capcheck_run_judge_end_report",
    **dict.fromkeys(("capcheck_c", "capcheck_scr", "capcheck_granule", "capcheck_nowhere"), "places are strings"),
}
NUMBERS = {"uint64_t": c.c_uint64, "int64_t": c.c_int64, "uint32_t": c.c_uint32, "uint16_t": c.c_uint16, "size_t": c.c_size_t,
           "int16_t": c.c_int16, "uint8_t": c.c_uint8, "bool": c.c_bool, "void": None}
ENUMS = (words.Refusal, words.Permissions, judges.State)
MODULES = (words, lines, judges, runs)


class Header:
    """What a header declares."""

    def __init__(self, name):
        text = re.sub(r"/\*.*?\*/", "", (PREFIX / f"include/{name}.h").read_text(), flags=re.S)
        self.structs = {it[2]: [field.strip().rsplit(None, 1) for field in it[1].strip().rstrip(";").split(";")]
                        for it in re.finditer(r"typedef struct \w+ \{(.*?)\} (\w+);", text, re.S)}
        self.constants = {it[1]: int(it[2], 0) for it in re.finditer(r"\b(CAPCHECK_\w+)(?: =)? +(0x[0-9a-f]+|\d+)u?\b", text)}
        text = re.sub(r"^\s*#.*$|CAPCHECK_CHECKED|typedef struct.*?;$", "", text, flags=re.M)
        calls = re.finditer(r"^([\w ]+?[ *]+)(capcheck_\w+)\(((?:[^()]|\([^()]*\))*)\);", text, re.M)
        self.calls = {it[2]: (it[1].strip(), [" ".join(word.split()) for word in it[3].split(",") if word != "void"])
                      for it in calls}


class Comparison:
    def __init__(self, language="Python"):
        self.count, self.wrong, self.language = 0, [], language

    def same(self, what, header, python):
        self.count += 1
        if header != python:
            self.wrong.append(f"{what}: {header} in C, {python} in {self.language}")


def struct_of(name):
    """The package's form of a struct."""
    title = "Wide" if name in ("capcheck_word", "capcheck_wide") else "".join(it.title() for it in name.split("_")[1:])
    return getattr(_abi, title, None)


def field_of(name):
    return re.sub(r"\[.*|\*", "", name)


def type_of(argument):
    """The types in Python that an argument of C may have."""
    kind = argument.removeprefix("const ").split()[0]
    if "*" in argument or "[" in argument:
        return [c.POINTER(struct_of(kind))] if struct_of(kind) else [c.c_char_p, c.c_void_p]
    return [NUMBERS[kind] if kind in NUMBERS else struct_of(kind)]


def compare_calls(header, libraries, compared):
    for name, (result, arguments) in header.calls.items():
        call = next((vars(library)[name] for library in libraries if name in vars(library)), None)
        if call is None:
            compared.same(name, "declared", "left out" if name not in LEFT_OUT else "declared")
            continue
        compared.same(f"{name}, result", type_of(result), [call.restype])
        compared.same(f"{name}, number of arguments", len(arguments), len(call.argtypes))
        for argument, given in zip(arguments, call.argtypes):
            wanted = type_of(argument)
            compared.same(f"{name}, {argument}", given if given in wanted else wanted, given)


def compare_structs(header, compared):
    for name, fields in header.structs.items():
        if name in LEFT_OUT:
            continue
        found = dict(struct_of(name)._fields_) if struct_of(name) else {}
        compared.same(f"{name}, fields", [field_of(field) for _, field in fields], list(found))
        for kind, field in fields:
            given = found.get(field_of(field))
            wanted = [given] if "[" in field else type_of(f"{kind} {field}")
            compared.same(f"{name}, {kind} {field}", given if given in wanted else wanted, given)


def compare_constants(header, compared):
    for name, number in header.constants.items():
        short = name.removeprefix("CAPCHECK_")
        found = [it[short].value for it in ENUMS if short in it.__members__]
        found += [getattr(module, f"_{short}") for module in MODULES if hasattr(module, f"_{short}")]
        found += [lines.Kind[short[5:]].value] if short.startswith("KIND_") and short[5:] in lines.Kind.__members__ else []
        if name not in LEFT_OUT:
            compared.same(name, {number}, set(found))


def compare_layouts(headers, compared):
    """Compares sizes and offsets with those that a C program prints."""
    structs = [name for it in headers for name in it.structs if name not in LEFT_OUT and struct_of(name)]
    prints = "".join(f'    printf("{name} %zu", sizeof({name}));\n' + "".join(
        f'    printf(" %zu", offsetof({name}, {field}));\n' for field, *_ in struct_of(name)._fields_) + '    puts("");\n'
        for name in structs)
    with tempfile.TemporaryDirectory() as work:
        Path(f"{work}/layout.c").write_text("#include <capcheck_recorder.h>\n#include <capcheck_freestanding.h>\n"
                                            f"#include <stdio.h>\nint main(void) {{\n{prints}}}\n")
        subprocess.run([os.environ.get("CC", "cc"), f"-I{PREFIX}/include", f"{work}/layout.c", "-o", f"{work}/layout"], check=True)
        told = subprocess.run([f"{work}/layout"], capture_output=True, text=True, check=True).stdout
    for line in told.splitlines():
        name, *numbers = line.split()
        struct = struct_of(name)
        found = [c.sizeof(struct), *(getattr(struct, field).offset for field, *_ in struct._fields_)]
        compared.same(f"{name}, layout", [int(it) for it in numbers], found)


def compare_exports(headers, compared):
    for name, library in LIBRARIES.items():
        words = [os.environ.get("NM", "nm"), "-D", "--defined-only", f"{PREFIX}/lib/lib{library}.so.1"]
        told = subprocess.run(words, capture_output=True, text=True, check=True).stdout
        exported = {line.split()[-1] for line in told.splitlines()}
        compared.count += 1
        for it in sorted(exported ^ set(headers[name].calls)):
            compared.wrong.append(f"lib{library}.so.1: {it} is {'exported' if it in exported else 'declared'} only")


def main():
    headers, compared = {name: Header(name) for name in HEADERS}, Comparison()
    for name, libraries in HEADERS.items():
        compare_calls(headers[name], libraries, compared)
        compare_structs(headers[name], compared)
        compare_constants(headers[name], compared)
    compare_layouts(headers.values(), compared)
    compare_exports(headers, compared)
    print("\n".join([*compared.wrong, f"{compared.count} compared, {len(compared.wrong)} differ"]))
    return int(bool(compared.wrong))


if __name__ == "__main__":
    sys.exit(main())
