# Functions that prove, build and store the program with the kit's command `rt`; for scripts that include scripts/program.bash.

# Prints the program's crate and its dependencies.
stands_on() {
    awk '
        /^[a-z]/ { name = $1; sub(/:$/, "", name); names[name]; sub(/[^:]*:/, ""); uses[name] = $0 }
        END {
            left[1] = "dss"; count = 1
            for (at = 1; at <= count; at++) {
                if (!(left[at] in names) || left[at] in seen) continue
                seen[left[at]]; print left[at]
                words = split(uses[left[at]], word, " ")
                for (each = 1; each <= words; each++) left[++count] = word[each]
            }
        }
    ' "$top/crates.txt"
}

# Proves and builds the program with the gate's command over a copy of its crates, without the mutants, and sets
# `made_here`. The command proves crates in parallel, reuses what earlier runs on this machine passed, and stores its own
# results for the gate.
build_in_copy() {
    local name said status
    local -a crates
    mapfile -t crates < <(stands_on)
    room=$(mktemp -d) && said=$room/said && : >"$said" && mkdir -- "$room/copy" || return 1
    tar -C "$top" --exclude='crates/*/out' --exclude='crates/*/must-fail' -c "${crates[@]/#/crates/}" |
        tar -C "$room/copy" -x && cp -- "$top/HANDLES" "$room/copy" || return 1
    for name in "${crates[@]}"; do
        grep "^${name}[ :]" "$top/crates.txt"
    done >"$room/copy/crates.txt"
    # It has its own process group, which can be stopped with all its children.
    set -m
    (unset CDPATH && cd -- "$room/copy" && rt ci </dev/null) >"$said" 2>&1 &
    job=$!
    set +m
    tail -n +1 -s 0.2 -f --pid="$job" -- "$said" | awk -v of="${#crates[@]}" '
        /^rt: [a-z0-9_]+ (proved$|is kept:)/ { printf "dss: %s proved, %d of %d\n", $2, ++number, of; fflush() }'
    wait "$job"
    status=$?
    job=
    made_here=$room/copy/crates/dss/out/dss
    [ "$status" = 0 ] || { cat -- "$said" && return 1; }
}

# Proves and builds the program incrementally, over the results of `rt check`, and sets `made_here`.
build_in_place() {
    made_here=$top/crates/dss/out/dss
    (unset CDPATH && cd -- "$top/crates/dss" && rt run -- --help </dev/null >/dev/null)
}

# Stores a program that was built from these sources, and sets `program`.
keep() {
    local kit
    kit=$(rt version) && make_place "$built" && cp -- "$1" "$place/dss" &&
        printf '%s\n' "kit $kit" "processor $(uname -m)" "sources $sources" "program $(sum_of "$1")" 'by build' >"$place/made-of" &&
        put_in_place
}

# Proves and builds the program, if another run has not done so meanwhile, and sets `program`. Its output goes to
# standard error.
build() {
    local made_here
    mkdir -p -- "$built" 2>/dev/null && exec 9<"$built" ||
        { printf 'dss: %s: cannot write there, so nothing is built\n' "$built" && return 1; }
    if ! flock -n 9; then
        printf 'dss: waiting for another run, which proves and builds the program\n'
        flock 9 || return 1
    fi
    if is_current "$built"; then
        program=$built/dss
        exec 9<&-
        return
    fi
    # With the results of an earlier check less is proved.
    if [ -d "$top/crates/dss/out/incremental" ]; then
        build_in_place
    else
        build_in_copy
    fi || return 1
    [ "$(sum_of_sources)" = "$sources" ] ||
        { printf 'dss: a source was changed while the program was built; run the command again\n' && return 1; }
    keep "$made_here" || return 1
    forget
    exec 9<&-
} >&2
