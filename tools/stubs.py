"""Leaves out the proofs of functions without edits in a trial. Each of these proofs is a hole, which the check assumes to be proved.
The contracts stay, and the edited functions need no more of them."""

import os

from functions import functions_in
from repository import put

STUB = """use Rattle.{crate}.proofs.{path}.Statement.{{statement}}

pub {name}_spec : {{M : Type 1}} → statement M
{name}_spec = ?
"""


def stub(folder, crate, but):
    """Leaves out the proofs of a crate's functions in a copy of the crate, except those of the paths `but`. A function that calls itself
    keeps its proof, which covers a whole cycle."""
    for it in functions_in(crate):
        if it.body is None or it.calls_itself or f"{crate}::{it.path}" in but:
            continue
        steps = it.path.split("::")
        at = f"{folder}/proofs/{'/'.join(steps)}"
        for file in os.listdir(at) if os.path.isdir(at) else []:
            if file.endswith(".antt"):
                os.remove(f"{at}/{file}")
        put(f"{at}/Proof.antt", STUB.format(crate=crate, path=".".join(steps), name=steps[-1]))
