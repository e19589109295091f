# Sourced by the host tests: a compiler for the archive's machine, a way to run what it makes, the archive, the count.
# The caller sets work, a folder of its own, and defines stop, which takes a message and ends the script.
export LC_ALL=C
root=$(cd "$(dirname "${BASH_SOURCE[0]}")/.." && pwd)
warnings=(-std=c11 -Wall -Wextra -Wpedantic -Werror)
passed=0
failed=0

# Ends a test with its count.
finish() {
    echo "$passed passed, $failed failed"
    [ "$failed" -eq 0 ]
    exit
}

# passes NAME COMMAND..: the command must succeed; what it said is shown if it does not
passes() {
    local name=$1
    shift
    if "$@" >"$work/said_by_test" 2>&1; then
        echo "passed: $name"
        passed=$((passed + 1))
    else
        echo "FAILED: $name"
        head -n 20 "$work/said_by_test"
        failed=$((failed + 1))
    fi
}

packages() {
    [ "$(id -u)" = 0 ] || stop "please install: $*"
    { apt-get update -qq && DEBIAN_FRONTEND=noninteractive apt-get install -y -qq --no-install-recommends "$@"; } \
        </dev/null >"$work/apt" 2>&1 || { cat "$work/apt" >&2; stop "could not install: $*"; }
}

# need COMMAND..: each has a package of its own name
need() {
    local name missing=()
    for name in "$@"; do
        command -v "$name" >/dev/null || missing+=("$name")
    done
    [ "${#missing[@]}" -eq 0 ] || packages "${missing[@]}"
}

# A compiler without its C library answers with a bare file name.
has_compiler() {
    command -v "$1" >/dev/null && [ -e "$("$1" -print-file-name=libc.a)" ]
}

# Archives and programs are x86-64: elsewhere a cross compiler links them, and an emulator runs the result.
rt=$(command -v rt) || stop "rt is not on the path"
kit=${RATTLE_HOME:-$(dirname "$(dirname "$(readlink -f "$rt")")")}
tools=$kit/toolchain
if [ "$(uname -m)" = x86_64 ]; then
    compiler=gcc
    has_compiler "$compiler" || packages gcc libc6-dev
    runner=()
else
    compiler=x86_64-linux-gnu-gcc
    has_compiler "$compiler" || packages gcc-x86-64-linux-gnu libc6-dev-amd64-cross
    command -v qemu-x86_64 >/dev/null || packages qemu-user
    # by its path, since test programs start it too
    runner=("$(command -v qemu-x86_64)")
fi

# Whether the machine runs a program of rt with its own C library.
runs_by_itself() {
    local complaint
    [ "$(uname -m)" = x86_64 ] && complaint=$(/lib64/ld-linux-x86-64.so.2 --list "$1" 2>&1 >/dev/null) && [ -z "$complaint" ]
}

# Runs a command that builds in this tree, and that is not tools/build: it takes the same lock, so one at a time.
alone() {
    local lock status
    exec {lock}<"$root/crates.txt" && flock "$lock" || return
    "$@"
    status=$?
    exec {lock}<&-
    return "$status"
}

# Builds the archive of a crate anew: one of older code would be tested as if it were this one.
# A copy is kept, since the next build would write what this test still reads.
build_archive() {
    archive=$work/lib$1.a
    alone make_archive "$1" </dev/null >"$work/rt" 2>&1 || { cat "$work/rt" >&2; stop "no archive"; }
}

make_archive() {
    (cd "$root/crates/$1" && "$rt" lib) && cp "$root/crates/$1/out/lib$1.a" "$archive"
}

run() {
    "${runner[@]+"${runner[@]}"}" "$@"
}

# Runs a program of groups (groups.h), for two minutes at most, and adds up its last line, 'N passed, M failed'.
count_groups() {
    local status
    timeout 120 "${runner[@]+"${runner[@]}"}" "$@" 2>&1 | tee "$work/log" | sed -u '$d'
    status=${PIPESTATUS[0]}
    if [[ $(tail -n 1 "$work/log") =~ ^([0-9]+)\ passed,\ ([0-9]+)\ failed$ ]]; then
        passed=$((passed + BASH_REMATCH[1]))
        failed=$((failed + BASH_REMATCH[2]))
        [ "$status" -eq 0 ] || [ "${BASH_REMATCH[2]}" -gt 0 ] || failed=$((failed + 1))
    else
        # It died: the groups that were done still count.
        tail -n 1 "$work/log"
        echo "${1##*/} ended with status $status before its count"
        passed=$((passed + $(grep -c '^passed: ' "$work/log")))
        failed=$((failed + 1 + $(grep -c '^FAILED: ' "$work/log")))
    fi
}
