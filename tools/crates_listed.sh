#!/usr/bin/env bash
# Every folder under crates/ is listed in crates.txt.
cd "$(dirname "$0")/.." || exit 2
status=0
for d in crates/*/; do
	name=$(basename "$d")
	grep -qE "^$name( +staticlib)? *:" crates.txt || { echo "crates/$name is not listed in crates.txt"; status=1; }
done
exit $status
