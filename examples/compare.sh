#!/bin/sh
# Runs the built program on each script here, and compares what it writes with the transcript beside it.
# First: (cd crates/lobstore && rt run -- store.lob run < /dev/null)
cd "$(dirname "$0")" || exit 1
failed=0
for script in *.script; do
    ../crates/lobstore/out/lobstore store.lob run < "$script" | cmp - "${script%.script}.transcript" || failed=1
done
exit $failed
