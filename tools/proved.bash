# For a script that runs a proved program: `root` is the repository's folder, `name` the program's crate. `prove` makes the program
# `built`, where it isn't there yet or a source is newer; it ends with 126 where it can't be built, and 127 where that needs `rt`,
# which isn't there. `run_built` runs it.

. "$root/tools/saying.bash"
built=$root/crates/$name/out/$name
log=$built.log

is_fresh() {
    [[ -x $built ]] &&
        [[ -z $(find "$root/crates.txt" "$root"/crates/*/{src,specs,proofs} -newer "$built" -print -quit 2>/dev/null) ]]
}

# Proves and builds the program, which rt then runs once, without words. What was built gets the time of the beginning,
# so that a source that is edited meanwhile is newer.
build() {
    local began=${EPOCHREALTIME/,/.}
    if ! command -v rt >/dev/null; then
        say "rt, the command of the Rattle toolchain, isn't on the PATH: without it the program can't be built"
        exit 127
    fi
    say "proves and builds the program now: it may take half an hour or more from nothing, less after a change (see $log)"
    if ! { mkdir -p -- "${built%/*}" && : >"$log"; } 2>/dev/null; then
        say "the folder ${built%/*} can't be written: copy the repository to where it can"
        exit 126
    fi
    (cd -- "$root/crates/$name" && rt run) </dev/null >>"$log" 2>&1
    if ! grep -q "^rt: running out/$name" -- "$log"; then
        cat -- "$log" >&2
        say "the program wasn't proved or wasn't built"
        exit 126
    fi
    touch -d "@$began" -- "$built"
}

prove() { is_fresh || build; }

# Runs the program, which gets a signal where this script dies.
run_built() {
    local guard=()
    ! command -v setpriv >/dev/null || guard=(setpriv --pdeathsig TERM)
    "${guard[@]}" "$built" "$@"
}
