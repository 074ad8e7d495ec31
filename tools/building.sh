# What ./optplan and ./optplan-unproved share: whether a program was built of the sources as they are, and its build.
# They set `root`, the top of the repository, and take this in.

# A sum over the files of these parts of all crates: their names and what is in them. Documents, cases and edits are none.
sum_of() {
    cd "$root" || return
    # shellcheck disable=SC2068 # each word is a pattern of folders
    find crates.txt ${@/#/crates/*/} -type f | LC_ALL=C sort | tr '\n' '\0' | xargs -0 sha256sum | sha256sum
}

# Whether a program stands there that was built of sources with this sum, and is not one that `rt` put there since.
is_built_of() {
    [[ -x $1 && -f $1.built_of && ! $1 -nt $1.built_of && $(<"$1.built_of") == "$2" ]]
}

building=''
log=''

# Ends what builds, if it still runs, and takes away what it said, unless that is to be read.
leave_nothing() {
    [[ -z $building ]] || { kill "$building" && wait "$building"; } 2>/dev/null || true
    [[ -z $log ]] || rm -f "$log"
    building=''
    log=''
}

# Runs a command that builds a program, and keeps what it says where it fails.
build() {
    trap leave_nothing EXIT
    trap 'exit 129' HUP
    trap 'exit 130' INT
    trap 'exit 143' TERM
    log=$(mktemp -t "${0##*/}.XXXXXX")
    "$@" >"$log" 2>&1 </dev/null &
    building=$!
    if ! wait "$building"; then
        building=''
        echo "${0##*/}: the build failed. What it said is in $log" >&2
        log=''
        exit 1
    fi
    building=''
    leave_nothing
}
