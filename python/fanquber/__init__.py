"""Proved grammar tools: lines judged by grammars in ABNF, and grammars of peg(1) run on bytes.

`Abnf` and `Peg` hold a grammar. `abnf` and `peg` are one whole run each, as the programs abnfi(1) and pegi(1) make it.
`compare` runs the program abnfd(1), which a wheel has inside.
"""
from ._grammars import Abnf, Peg, PegRun, compare
from ._programs import ProgramFailed, ProgramMissing
from .comparisons import Alone, Comparison
from .findings import Finding, Note
from .refusals import Refusal
from .trees import Tree
from ._library import (
    DEFAULT_LIMIT,
    MAX_LIMIT,
    Costly,
    FanquberError,
    GrammarError,
    Letters,
    Listed,
    Mode,
    OutOfMemory,
    Overlong,
    Reply,
    Status,
    TooManyStacks,
    abnf,
    peg,
    peg_each,
)

__all__ = [
    "Abnf",
    "Alone",
    "Comparison",
    "Costly",
    "DEFAULT_LIMIT",
    "FanquberError",
    "Finding",
    "GrammarError",
    "Letters",
    "Listed",
    "MAX_LIMIT",
    "Mode",
    "Note",
    "OutOfMemory",
    "Overlong",
    "Peg",
    "PegRun",
    "ProgramFailed",
    "ProgramMissing",
    "Refusal",
    "Reply",
    "Status",
    "TooManyStacks",
    "Tree",
    "abnf",
    "compare",
    "peg",
    "peg_each",
]
__version__ = "3.0"
