"""128-bit CHERI capabilities, over the proved C libraries: words, bounds, operations, logs and their judge."""
from . import heaps, lines, runs
from .heaps import HeapVerdict
from .judges import Judge, Rejected, Verdict, judge, judge_bytes, why
from .lines import Kind, Line
from .recording import Recorder
from .runs import Object, RunJudge, RunLine, RunVerdict
from .shortening import shorten
from .words import (NULL, Capability, Fields, Permissions, Range, Refusal, Refused, Rounded, alignment_mask,
                    representable_length, round_bounds, version)

__all__ = ["NULL", "Capability", "Fields", "HeapVerdict", "Judge", "Kind", "Line", "Object", "Permissions", "Range", "Refusal", "Refused",
           "Recorder", "Rejected", "Rounded", "RunJudge", "RunLine", "RunVerdict", "Verdict", "alignment_mask", "heaps", "judge", "judge_bytes",
           "lines", "representable_length", "round_bounds", "runs", "shorten", "version", "why"]
__version__ = version()
