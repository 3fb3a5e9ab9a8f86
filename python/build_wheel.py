"""Builds the wheel: the package with the shared libraries in it. It needs the standard library alone, so pip needs no
network. The libraries are those in the folder CAPCHECK_LIB, or those that pkg-config finds.

    python3 python/build_wheel.py FOLDER   writes the wheel into a folder, as `pip wheel` does"""
import base64
import hashlib
import os
import re
import subprocess
import sys
import zipfile
from pathlib import Path

HERE = Path(__file__).resolve().parent
LIBRARIES = ("capcheck_c", "capcheck_judge", "capcheck_recorder", "capcheck_freestanding")
METADATA = """Metadata-Version: 2.1
Name: capcheck
Version: {version}
Summary: 128-bit CHERI capabilities, over the proved C libraries: words, bounds, operations, logs and their judge
Requires-Python: >=3.10
Provides-Extra: cluster
Requires-Dist: distributed; extra == "cluster"
Requires-Dist: fsspec; extra == "cluster"
"""
WHEEL = """Wheel-Version: 1.0
Generator: capcheck
Root-Is-Purelib: false
Tag: {tag}
"""


def _installed():
    """The folder of the installed libraries."""
    if folder := os.environ.get("CAPCHECK_LIB"):
        return Path(folder)
    words = ["pkg-config", "--variable=libdir", "capcheck"]
    found = subprocess.run(words, capture_output=True, text=True)
    if found.returncode:
        raise SystemExit("capcheck isn't installed: name the folder of its libraries by CAPCHECK_LIB")
    return Path(found.stdout.strip())


def build_wheel(folder, settings=None, metadata=None):
    """Writes the wheel into a folder, and returns its name."""
    installed = _installed()
    version = re.search(r"(?m)^Version: (.+)$", (installed / "pkgconfig/capcheck.pc").read_text())[1].replace("-dev", ".dev0")
    tag, about = "py3-none-linux_x86_64", f"capcheck-{version}.dist-info"
    files = [*sorted((HERE / "capcheck").glob("*.py")), HERE / "capcheck/py.typed",
             *(installed / f"lib{name}.so.1" for name in LIBRARIES)]
    parts = {f"capcheck/{file.name}": file.read_bytes() for file in files}
    parts |= {f"capcheck/dialects/{file.name}": file.read_bytes() for file in sorted((HERE / "capcheck/dialects").glob("*.json"))}
    parts["capcheck/page.html"] = (HERE.parent / "web/capcheck.html").read_bytes()
    parts[f"{about}/METADATA"] = METADATA.format(version=version).encode()
    parts[f"{about}/WHEEL"] = WHEEL.format(tag=tag).encode()
    hashes = {name: base64.urlsafe_b64encode(hashlib.sha256(part).digest()).rstrip(b"=").decode() for name, part in parts.items()}
    rows = [f"{name},sha256={hashes[name]},{len(part)}\n" for name, part in parts.items()]
    parts[f"{about}/RECORD"] = "".join([*rows, f"{about}/RECORD,,\n"]).encode()
    with zipfile.ZipFile(Path(folder) / f"capcheck-{version}-{tag}.whl", "w", zipfile.ZIP_DEFLATED) as wheel:
        for name, part in parts.items():
            wheel.writestr(zipfile.ZipInfo(name), part, zipfile.ZIP_DEFLATED)
    return f"capcheck-{version}-{tag}.whl"


if __name__ == "__main__":
    print(build_wheel(sys.argv[1]))
