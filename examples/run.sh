#!/usr/bin/env bash
# Runs `syned` on scripts: bash examples/run.sh examples/replace.script (examples/run.py says more).
exec python3 "$(dirname "$0")/run.py" "$@"
