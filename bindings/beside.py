"""Compares links of the bindings with the querier of vectors/model.py, over the vectors and over made-up captures.

`model.replay` drives a querier: the one of the model, or a link of a binding in a class with the same calls. Both have to write the
same text.
"""

import concurrent.futures
import importlib.machinery
import importlib.util
import os
import sys

TOP = os.path.dirname(os.path.dirname(os.path.abspath(__file__)))
sys.path[:0] = [f"{TOP}/vectors", f"{TOP}/tools"]
sys.dont_write_bytecode = True

import model  # noqa: E402
from wire import FAMILIES  # noqa: E402


def module_of(file):
    """Loads a Python tool whose file name has no suffix."""
    loader = importlib.machinery.SourceFileLoader(os.path.basename(file).replace("-", "_"), file)
    made = importlib.util.module_from_spec(importlib.util.spec_from_loader(loader.name, loader))
    loader.exec_module(made)
    return made


made_up = module_of(f"{TOP}/tools/made-up")


def vectors():
    """Yields each vector: its name, capture, family, options and text."""
    with open(f"{TOP}/vectors/list", encoding="utf-8") as rows:
        for row in rows:
            if not row.startswith("#"):
                name, family, *words = row.split()
                with open(f"{TOP}/vectors/{name}.pcap", "rb") as data, open(f"{TOP}/vectors/{name}.txt", encoding="utf-8") as text:
                    yield name, data.read(), FAMILIES[family], model.options_of(words), text.read()


def vector_wrong(querier):
    """Returns the names of the vectors for which a querier writes a different text."""
    return [
        name
        for name, data, family, options, text in vectors()
        if "".join(f"{line}\n" for line in model.replay(data, family, options, querier)[0]) != text
    ]


def sequence_wrong(querier, number):
    """Returns how a querier differs from the model over a made-up capture, or None."""
    it = made_up.MadeUp(number)
    wanted, got = (model.replay(it.data, it.family, it.options(), its) for its in (model.Querier, querier))
    if wanted == got:
        return None
    return f"sequence {number}: {made_up.difference(made_up.wanted(*got), made_up.wanted(*wanted))}"


def sequences_wrong(querier, count):
    """Returns the differences over the captures from number 1 on, on all cores."""
    with concurrent.futures.ProcessPoolExecutor() as pool:
        found = pool.map(sequence_wrong, [querier] * count, range(1, count + 1), chunksize=50)
        return [it for it in found if it]
