# shellcheck shell=bash
# What the scripts share: sourced by ./test, ./bench, ./install and the programs under tests/, at the root of the
# repository. Nothing runs when it is read.

# add PACKAGE..: installs Debian packages.
add() {
	[ -n "${apt_updated:-}" ] || { apt-get update -qq >/dev/null 2>&1; apt_updated=1; }
	DEBIAN_FRONTEND=noninteractive apt-get install -y -qq "$@" >/dev/null 2>&1
}

# need COMMAND PACKAGE..: installs Debian packages where a command is not there.
need() {
	local command=$1
	shift
	command -v "$command" >/dev/null || add "$@"
	command -v "$command" >/dev/null && return 0
	echo "setup: $command is not there, and $* could not be installed" >&2
	return 1
}

# The compilers of x86-64 programs, and what runs them here: the kit compiles for x86-64 alone.
# shellcheck disable=SC2034 # the scripts that source this use them
if [ "$(uname -m)" = x86_64 ]; then
	x86_cc=gcc x86_cxx=g++
	x86_run=()
else
	x86_cc=x86_64-linux-gnu-gcc x86_cxx=x86_64-linux-gnu-g++
	x86_run=(qemu-x86_64 -L /usr/x86_64-linux-gnu)
fi

# The proved archive: rt writes it into an out/ folder, which rt ci empties, so that what was built is kept apart.
archive=target/libshelugvar.a

# newer_than FILE: the first source of the crates that is newer than FILE, or a folder from which something went; none
# where FILE is up to date. What rt makes, in out/ folders, is no source, and making it touches the crates' own folders.
newer_than() {
	find crates crates.txt -regex 'crates/[^/]*/out' -prune -o \
		! -regex 'crates/[^/]*' -newer "$1" -print -quit
}

# without_proved: passes on what rt says as it comes, but for its lines of each function and library.
without_proved() {
	sed -u -E '/^(fn|struct|enum) .*: proved$/d
		/^(logic|logic=proved|library|statements|crate|axioms|linked) /d
		/^(only=0 proved=0$|so far: )/d'
}

# build_archive: proves and builds the archive, where it is not there or older than the crates. It is for every x86-64
# processor: what rt takes where nothing is said wants one of about 2009 or later, and an archive does not look.
build_archive() {
	local made=crates/firmware_c/out/libfirmware_c.a
	[ ! -f "$archive" ] || [ -n "$(newer_than "$archive")" ] || return 0
	mkdir -p target || return 1
	# as old as the build's start in the end, so that what is edited meanwhile counts as newer
	touch target/started
	rm -f "$made"
	(cd crates/firmware_c && rt lib --cpu=x86-64 </dev/null 2>&1) | without_proved
	[ "${PIPESTATUS[0]}" = 0 ] || return 1
	cp "$made" "$archive.new" && touch -r target/started "$archive.new" && mv "$archive.new" "$archive"
}

# check LABEL COMMAND..: a test, which passes where the command succeeds; where it does not, what it said is shown.
# `counted` says how many did, and has that as its status.
passed=0 failed=0
check() {
	local label=$1 said
	shift
	if said=$("$@" 2>&1); then
		passed=$((passed + 1))
		echo "ok: $label"
	else
		failed=$((failed + 1))
		printf 'failed: %s\n%s\n' "$label" "$said"
	fi
}

counted() {
	echo "$passed passed, $failed failed"
	[ "$failed" = 0 ]
}

# What ./bench needs too.
setup_programs() {
	need gcc gcc libc6-dev && need make make && need python3 python3 || return 1
	[ "$(uname -m)" = x86_64 ] && return 0
	need "$x86_cc" gcc-x86-64-linux-gnu libc6-dev-amd64-cross && need qemu-x86_64 qemu-user
}

setup_tests() {
	setup_programs && need shellcheck shellcheck && need clang-format clang-format && need mypy mypy || return 1
	need pkg-config pkg-config && need cmake cmake || return 1
	if [ "$(uname -m)" = x86_64 ]; then
		need "$x86_cxx" g++ && need valgrind valgrind || return 1
	else
		need "$x86_cxx" g++-x86-64-linux-gnu || return 1
	fi
	/usr/bin/python3 -c 'import crcmod' 2>/dev/null || add python3 python3-crcmod
	/usr/bin/python3 -c 'import crcmod'
}
