#!/usr/bin/env python3
"""Compares the C headers with the Rust crate: each call with its arguments and result, each struct with its fields, in order and
of the same type, so that `repr(C)` lays it out as C does, and each constant.

    python3 rust/abi_check.py PREFIX

PREFIX is the folder that install.sh installed below. A line says what differs. The last line is `N compared, M differ`, and the
status is 1 if anything differs."""
import re
import sys
from pathlib import Path

HERE = Path(__file__).resolve().parent
sys.path.insert(0, str(HERE.parent / "python"))
from abi_check import Comparison, Header  # noqa: E402

HEADERS = ("capcheck", "capcheck_answer", "capcheck_judge")
# What the crate doesn't need, and why.
LEFT_OUT = {
    "capcheck_null": "Capability::NULL", "capcheck_text_of": "Rust writes the digits", "capcheck_word_text": "capcheck_text_of",
    "capcheck_read_lines": "capcheck_read_line", "capcheck_read": "capcheck_read_line", "capcheck_kind_name": "an enum",
    "capcheck_kind_sentence": "an enum", "capcheck_state_name": "an enum", "capcheck_state_sentence": "an enum",
    "capcheck_judge_report": "capcheck_judge_end_report", "capcheck_judge_text": "a debugger's",
    "capcheck_judge_memory": "the judge uses malloc", "capcheck_run_judge_report": "capcheck_run_judge_end_report",
    **{f"capcheck_judge_{it}": "capcheck_judge_step" for it in ("move", "cleartag", "setbounds", "setboundsexact", "setaddr", "andperm",
                                                                "seal", "unseal", "lc", "sc", "load", "store")},
}
NUMBERS = {"uint64_t": "u64", "int64_t": "i64", "uint32_t": "u32", "uint16_t": "u16", "size_t": "usize", "int16_t": "i16",
           "uint8_t": "u8", "char": "u8", "bool": "bool", "void": "c_void"}
SOURCES = {it.stem: it.read_text() for it in (HERE / "src").glob("*.rs")}


def camel(name):
    return "".join(it.title() for it in name.split("_"))


def type_of(kind, name=""):
    """The type in Rust of a type in C and the name that is declared; `words` may have both."""
    const, base = kind.startswith("const "), kind.removeprefix("const ").split()[0].rstrip("*")
    found = NUMBERS.get(base) or camel(base.removeprefix("capcheck_"))
    size = re.search(r"\[(\d+)\]", name)
    if size and not const:
        return f"[{found}; {size[1]}]"
    return f"*{'const' if const else 'mut'} {found}" if "*" in kind + name or "[" in name else found


def compare_calls(header, compared):
    for name, (result, arguments) in header.calls.items():
        if name in LEFT_OUT:
            continue
        given = re.search(rf"pub fn {name}\((.*?)\)(?: -> (.*?))?;", SOURCES["abi"])
        wanted = [type_of(re.sub(r"\[.*", "*", it)) if "[" in it else type_of(it) for it in arguments]
        compared.same(name, wanted, [it.split(": ")[1] for it in given[1].split(", ")] if given and given[1] else [])
        compared.same(f"{name}, result", "None" if result == "void" else type_of(result), str(given and given[2]))


def compare_structs(header, compared):
    for name, fields in header.structs.items():
        if name in LEFT_OUT:
            continue
        given = re.search(rf"#\[repr\(C\)\]\n.*\npub struct {camel(name.removeprefix('capcheck_'))} {{\n(.*?)\n}}", SOURCES["abi"], re.S)
        wanted = [f"    pub {re.sub('[^a-z_]', '', field)}: {type_of(kind, field)}," for kind, field in fields]
        compared.same(name, wanted, given[1].split("\n") if given else [])


def compare_constants(header, compared):
    refusals = dict(re.findall(r"\b([A-Z]\w+) = (\d+)", SOURCES["refusals"]))
    constants = dict(re.findall(r"const (\w+): \w+ = (\w+);", "\n".join(SOURCES.values())))
    for name, number in header.constants.items():
        short = name.removeprefix("CAPCHECK_")
        found = constants.get(short, refusals.get(camel(short.lower())))
        if found is not None:
            compared.same(name, number, int(found, 0))
    compared.same("refusals", 42, len(refusals))


def main():
    compared = Comparison("Rust")
    for name in HEADERS:
        header = Header(name)
        compare_calls(header, compared)
        compare_structs(header, compared)
        compare_constants(header, compared)
    version = re.search(r'VERSION_STRING "(.*)"', (HERE.parent / "include/capcheck.h").read_text())[1]
    compared.same("version", version, re.search(r'(?m)^version = "(.*)"', (HERE / "Cargo.toml").read_text())[1])
    print("\n".join([*compared.wrong, f"{compared.count} compared, {len(compared.wrong)} differ"]))
    return int(bool(compared.wrong))


if __name__ == "__main__":
    sys.exit(main())
