"""The draw of a run, by which it picks the edits and the tests that it tries anew though the record has them.

Whoever writes a commit doesn't choose it: each run draws its own, and prints it. All steps of a run have one draw, which checks/run hands on in
PEVUDLO_DRAW; the same value there has a run pick the same once more.
"""

import os
import secrets

DRAW = "PEVUDLO_DRAW"


def drawn() -> str:
    """The draw of this run: that of the run whose step this is, or a new one, which is printed."""
    if DRAW not in os.environ:
        os.environ[DRAW] = secrets.token_hex(8)
        print(f"{DRAW}={os.environ[DRAW]}", flush=True)
    return os.environ[DRAW]
