"""The filters that a link should forward, by the proved replay of the frames of its hosts."""

import json
import os
import struct
import subprocess
import tempfile

from fabric import SHORT
from lab import TOP, Wrong

BUILT = [place for it in ("bin/mquerier", "crates/mquerier/out/mquerier") if os.path.isfile(place := os.path.join(TOP, it))]
REPLAY = max(BUILT, key=os.path.getmtime, default=None)
GREATEST_LIST = 31


def replayed(frames, family, until, own, *options):
    """Returns the objects of a replay of frames with their timestamps. It ends at a time."""
    with tempfile.NamedTemporaryFile(suffix=".pcap") as capture:
        capture.write(struct.pack("=IHHiIII", 0xA1B23C4D, 2, 4, 0, 0, 65535, 1))
        for stamp, frame in frames:
            capture.write(struct.pack("=IIII", stamp // 10**9, stamp % 10**9, len(frame), len(frame)) + frame)
        capture.flush()
        capture.seek(0)
        words = [REPLAY, "replay", "--json", *options, family, "--own", own, *SHORT, "--until", str(max(0, until - frames[0][0]) // 10**6)]
        ran = subprocess.run(words, stdin=capture, capture_output=True, text=True, check=False)
    if ran.returncode:
        raise Wrong(f"replay: {ran.stderr}")
    return map(json.loads, ran.stdout.splitlines())


def filter_of(it):
    """Returns the filter of a group's object: a mode and sources, or None."""
    group, mode = it["group"], it["filter"]
    chosen = [source["source"] for source in it["sources"] if (source["timer"] is None) == (mode == "exclude")]
    if group.startswith("224.0.0.") or (mode == "include" and not chosen):
        return None
    return (mode, frozenset(chosen)) if len(chosen) <= GREATEST_LIST else ("exclude", frozenset())


def forwarded(frames, family, until, own):
    """Returns the filters that the proved replay has at a time: a mode and sources for each group."""
    before = [it for it in frames if it[0] <= until]
    found = [it for it in replayed(before, family, until, own) if it["event"] == "group"] if before else []
    return {it["group"]: wanted for it in found if (wanted := filter_of(it))}


def filters(frames, family, until, own):
    """Returns the filters of each group until a time, each with the time from which it holds."""
    found = {}
    for it in replayed(frames, family, until, own, "--changes") if frames else ():
        if it["event"] == "change":
            found.setdefault(it["group"], []).append((frames[0][0] + it["time"] * 10**6, filter_of(it)))
    return found
