#!/bin/sh
# Writes what the programs that run values are run on, and the replies expected of them, by the reference.
set -eu
here=$(cd "$(dirname "$0")" && pwd)
crates=$(cd "$here/../../crates" && pwd)
python3 -B "$here/make_files.py" "$crates/file_values"
python3 -B "$here/make_calls.py" "$crates/call_values"
