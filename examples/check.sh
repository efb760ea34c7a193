#!/bin/sh
# Tells whether each example stands, byte for byte, in the script of `trace_play`, which reads it; whether its trace has
# the same configuration; and whether the program, built by its launcher, plays the trace to the stored transcript.
cd "$(dirname "$0")" && ../extproc --version >/dev/null && exec python3 - <<'PYTHON'
import json
import pathlib
import subprocess
import sys

script = pathlib.Path("../crates/trace_play/stdin").read_text()
bad = []
for path in sorted(pathlib.Path(".").glob("*.json")):
    text = path.read_text()
    if f"\nconfig\n{text}.\n" not in script:
        bad.append(f"{path} is not a text that crates/trace_play/stdin reads")
    trace = path.with_suffix(".trace").read_bytes()
    word, configuration = trace.split(b"\n")[1].split(b" ", 1)
    if word != b"config" or json.loads(configuration) != json.loads(text):
        bad.append(f"{path} is not the configuration of its trace")
    played = subprocess.run(["../extproc", "replay"], input=trace, capture_output=True, timeout=60)
    if (played.returncode, played.stderr) != (0, b"") or played.stdout != path.with_suffix(".transcript").read_bytes():
        bad.append(f"the program doesn't play {path.with_suffix('.trace')} to its transcript")
for line in bad:
    print(f"examples/{line}")
sys.exit(bool(bad))
PYTHON
