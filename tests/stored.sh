# Sourced behind host.sh by the tests of the command on files: calls of it and what came of them, areas to try it on, and pages
# that show commands. The caller has set work, and stands in no folder that it needs.
command=$root/wickthrush

# Under the emulator there is less to run, and it takes longer.
many=12
seconds=20
[ "${#runner[@]}" -eq 0 ] || { many=2; seconds=60; }

# ---- what is tried

need_programs() { # NAME ..
    local name
    for name in "$@"; do
        "$root/tools/build" "$name" 2>"$work/rt" || { cat "$work/rt"; stop "no programs"; }
    done
}

# areas KIND ..: areas and streams of lines, the same in every run
need_areas() {
    build_archive wickthrush
    "$compiler" "${warnings[@]}" -O2 -static -I"$root/include" -I"$root/tests/second" "$root/tests/service/areas.c" \
        "$root"/tests/lines/{bytes,reader,streams}.c "$root"/tests/second/{groups,second}.c "$archive" -o "$work/areas" 2>"$work/errors" ||
        { head -n 20 "$work/errors"; stop "the test does not compile"; }
}
areas() { run "$work/areas" "$@"; }

# ---- calls and what came of them

# a folder with nothing in it, in which the test then stands
fresh() {
    cd "$work" && chmod -R u+rwx there 2>/dev/null
    rm -rf there && mkdir there && cd there || exit 1
}
# runs the command; `status`, and the files out and said, have the result. Input is the caller's.
call() { # WORD ..
    timeout "$seconds" "$command" "$@" >"$work/out" 2>"$work/said"
    status=$?
}
told() { # STATUS [LINE]: that status, and that line or nothing on standard error
    [ "$status" -eq "$1" ] && diff <([ $# -lt 2 ] || printf '%s\n' "$2") "$work/said" && return
    echo "status $status, not $1"
    return 1
}
printed_nothing() { [ ! -s "$work/out" ] || { head -n 3 "$work/out"; return 1; }; }
here_are() { # FILE ..: these and no others
    diff <([ $# -eq 0 ] || printf '%s\n' "$@" | sort) <(find . -mindepth 1 -printf '%P\n' | sort)
}

# ---- a page: each command that it shows, run one after the other, prints what stands below it

page_is_true() { # PAGE LEAST: with so many commands at least
    local count
    fresh
    ln -s "$root/wickthrush" wickthrush
    ln -s "$root/examples" examples
    sed -n 's/^    //p' "$1" >"$work/wanted"
    count=$(grep -c '^\$ ' "$work/wanted")
    [ "$count" -ge "$2" ] || { echo "only $count commands"; return 1; }
    sed -n 's/^\$ //p' "$work/wanted" >"$work/commands"
    # one shell for all, which knows the status of the command before
    cat >"$work/each" <<'END_OF_SHELL'
status=0
while IFS= read -r line <&5; do
    printf '$ %s\n' "$line"
    (exit "$status")
    eval "$line"
    status=$?
done
END_OF_SHELL
    timeout "$((3 * seconds))" bash "$work/each" 5<"$work/commands" >"$work/out" 2>&1 </dev/null
    diff "$work/wanted" "$work/out"
}
