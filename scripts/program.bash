# Functions that find the program to run and check that it matches these sources; scripts/build.bash builds one.
#
# They are for scripts that set `top` to the directory of the repository, and call `forget` when they exit. A program
# matches these sources according to its record, which has SHA-256 of the sources and of itself. File times do not count,
# and the kit is not needed. gateway/program.bash uses the same functions for the gateway.

# The name of the program, and the directory of one that was built or unpacked here.
program_name=dss
built=$top/.dss
release=$top/release
packed=$release/dss-x86_64-linux.gz
record=$release/made-of
# The system that the release needs.
needs='glibc 2.34 or later'
# What an aborted run leaves: its own directories, and the job that proves.
room='' place='' job=''

# Prints the SHA-256 of a file, or nothing.
sum_of() {
    local sum
    sum=$(sha256sum <"$1") && printf '%s\n' "${sum%% *}"
} 2>/dev/null

# Reads find's list of files, sorts it, and prints the SHA-256 of sha256sum's output for them.
sum_of_list() {
    local sum
    sum=$(set -o pipefail && LC_ALL=C sort -z | xargs -0 sha256sum -- | sha256sum) && printf '%s\n' "${sum%% *}"
}

# Prints the SHA-256 of all sources of the program: crates.txt and each file below a crate's src, specs and proofs.
# Untracked files there count. Files in out do not.
sum_of_sources() (
    unset CDPATH
    cd -- "$top" && shopt -s nullglob && set -o pipefail &&
        find crates.txt crates/*/src crates/*/specs crates/*/proofs ! -type d -print0 | sum_of_list
)

# Prints the source files that git does not track, if this is a git repository.
strays() (
    unset CDPATH
    cd -- "$top" && shopt -s nullglob && [ -e .git ] && git ls-files --others -- crates/*/src crates/*/specs crates/*/proofs
) 2>/dev/null

# Sets `made` to the record of a program: its kit, processor, sources, its own sum, and for a program in .dss whether it
# came `by` the release or by a build.
read_made() {
    local word rest
    declare -gA made=()
    [ -r "$1" ] || return 1
    while read -r word rest; do
        made[${word:-none}]=$rest
    done <"$1"
}

# Succeeds if the program in a directory matches these sources and is undamaged. The caller can give its sum. Otherwise
# `other` says why.
is_current() {
    local is_damaged="the program in ${built#"$top/"} is damaged"
    other=
    [ -e "$1/$program_name" ] || return 1
    other="the program in ${built#"$top/"} was built from other sources"
    read_made "$1/made-of" && [ "${made[sources]-}" = "$sources" ] || return 1
    if [ "${DSS_BUILD-}" = source ] && [ "${made[by]-}" != build ]; then
        other='DSS_BUILD asks for a build'
        return 1
    fi
    # Another run may have put it there since its sum was computed.
    [ "${made[program]-}" = "${2-}" ] || [ "${made[program]-}" = "$(sum_of "$1/$program_name")" ] || { other=$is_damaged && return 1; }
    [ -x "$1/$program_name" ] || { other=$is_damaged && return 1; }
}

# Sets `place` to a new directory in the first of the given directories that is writable.
make_place() {
    local folder
    for folder in "$@"; do
        mkdir -p -- "$folder" && place=$(mktemp -d -- "$folder/new.XXXXXX") && return
    done 2>/dev/null
    return 1
}

# Moves the files in `place` into its parent directory. Another run that does so has the same files. A run in between
# finds no program, or one that does not match its record.
put_in_place() {
    program=${place%/*}/$program_name
    mv -f -- "$place/made-of" "${place%/*}/made-of" && mv -f -- "$place/$program_name" "$program" && rmdir -- "$place" && place=
}

# Unpacks the release to a file, if it matches these sources and this processor and is undamaged. Otherwise `why` says
# what is wrong.
unpack() {
    why='there is no release'
    read_made "$record" || return 1
    why='the release was made from other sources'
    [ "${made[sources]-}" = "$sources" ] || return 1
    why="the release is for ${made[processor]-}, and this processor is $(uname -m)"
    [ "${made[processor]-}" = "$(uname -m)" ] || return 1
    why='the release is damaged'
    gzip -dc -- "$packed" >"$1" 2>/dev/null && [ "$(sum_of "$1")" = "${made[program]-}" ] || return 1
    why="the release does not start on this system; it needs $needs"
    chmod 755 -- "$1" && "$1" --help </dev/null >/dev/null 2>&1
}

# Unpacks the release's program into .dss, or into the user's cache if the repository is not writable, and sets
# `program`.
take_release() {
    make_place "$built" "$cache" || { why="cannot write in $built or $cache" && return 1; }
    unpack "$place/$program_name" && { cat -- "$record" && printf 'by release\n'; } >"$place/made-of" && put_in_place && return
    forget
    return 1
}

# Ends the processes of an aborted build, and removes its files.
forget() {
    [ -z "${job-}" ] || kill -- "-$job" 2>/dev/null
    rm -rf -- ${room:+"$room"} ${place:+"$place"}
    room='' place='' job=''
}

# Sets `program` to the program of these sources: the one in .dss, else that of the release, else one that it proves and
# builds now. A line on standard error says why it skips one.
find_program() {
    local seen other why first
    # The two sums are computed in parallel.
    exec 8< <(sum_of "$built/dss")
    sources=$(sum_of_sources) || { printf 'dss: cannot read the sources in crates/\n' >&2 && return 1; }
    read -r seen <&8
    exec 8<&-
    program=$built/dss
    is_current "$built" "$seen" && return
    first=$other
    cache=${XDG_CACHE_HOME:-${HOME-}/.cache}/dss/$sources
    program=$cache/dss
    is_current "$cache" && return
    if [ "${DSS_BUILD-}" = source ]; then
        why='DSS_BUILD asks for a build'
    elif take_release; then
        [ -z "$first" ] || printf 'dss: %s: running the release\n' "$first" >&2
        return
    fi
    if ! command -v rt >/dev/null; then
        printf 'dss: %s, and the command rt of the Rattle kit, which could build the program, is not on PATH\n' "$why" >&2
        return 1
    fi
    printf 'dss: %s: proving and building the program\n' "$why" >&2
    . "$top/scripts/build.bash"
    build || { printf 'dss: the program could not be proved and built; see the output above\n' >&2 && return 1; }
}
