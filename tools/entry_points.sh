#!/usr/bin/env bash
# No entry point asks anything of its caller: in the crates that a host, a drive box or another program calls, no `pub`
# function of the crate's root or of a `pub mod` has a `requires`. Inner layers may (docs/CONTRACTS.md, "Exceptions").
cd "$(dirname "$0")/.." || exit 2
status=0
for crate in node firmware firmware_c frame check8 window lent_window table units lines trace trace_step trace_lines; do
	src=crates/$crate/src
	mapfile -t files < <(echo "$src/lib.rt"; sed -nE "s|^pub mod (\\w+);.*|$src/\\1.rt|p" "$src/lib.rt")
	# a function's head runs from its `pub` line to the line that opens its body
	awk -v crate="$crate" '
		/^ *pub (const |unsafe |extern "C" )*fn / { head = 1; name = $0 }
		head && /^ *requires / { print crate ": " name; bad = 1 }
		/^ *\{$/ || /\{$/ { head = 0 }
		END { exit bad }' "${files[@]}" || status=1
done
exit $status
