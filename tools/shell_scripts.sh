#!/usr/bin/env bash
# Every shell script of the repository passes shellcheck: what begins with a shell's #! line, and what those source.
cd "$(dirname "$0")/.." || exit 2
mapfile -t scripts < <(grep -rlIE '^#!.*[/ ](ba)?sh$' --exclude-dir={.git,crates,target} . | sort)
exec shellcheck -x "${scripts[@]}" tools/setup.sh
