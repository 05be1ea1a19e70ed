# Functions that find the gateway to run and check that it matches these sources, as scripts/program.bash does for the
# service, whose functions it uses.
#
# They are for scripts that set `top` to the directory of the repository, and call `forget` when they exit. The record has
# the SHA-256 of the sources and of the program, and the packages that built it.

. "$top/scripts/program.bash"
. "$top/gateway/packages.bash"
program_name=dss-gateway
built=$top/.dss/gateway/program
packed=$release/dss-gateway-x86_64-linux.gz
record=$release/gateway-made-of
needs="Debian 12's packages ${libraries[*]}"

# Prints the SHA-256 of all sources of the gateway.
sum_of_sources() (
    unset CDPATH
    cd -- "$top/gateway" && set -o pipefail && find Makefile src page ! -type d -print0 | sum_of_list
)

# Prints the source files that git does not track, if this is a git repository.
strays() (
    unset CDPATH
    cd -- "$top" && [ -e .git ] && git ls-files --others -- gateway/Makefile gateway/src gateway/page
) 2>/dev/null

# Prints the packages that decide which bytes a build gives: the compiler's, and those whose code is in the program.
tools() {
    dpkg-query -W -f '${Package} ${Version}, ' binutils g++-12 libc6-dev libstdc++-12-dev libs2-dev libabsl-dev \
        libboost1.74-dev nlohmann-json3-dev libtoml11-dev libssl-dev zlib1g-dev 2>/dev/null | sed 's/, $//'
}

# Prints the record of a gateway that was built from these sources.
record_of() {
    printf '%s\n' "tools $(tools)" "processor $(uname -m)" "sources $sources" "program $(sum_of "$1")"
}

# Builds the gateway, if make does not find it built, and stores it as `program`.
build_gateway() {
    install_missing "${packages[@]}" && build "$top/.dss/gateway" || return 1
    if [ "$(sum_of_sources)" != "$sources" ]; then
        printf 'gateway: a source was changed while the gateway was built; run the command again\n' >&2
        return 1
    fi
    make_place "$built" && cp -- "$top/.dss/gateway/gateway" "$place/$program_name" &&
        { record_of "$place/$program_name" && printf 'by build\n'; } >"$place/made-of" && put_in_place
}

# Sets `program` to the gateway of these sources: the one in .dss, else that of the release, else one that it builds now.
# A line on standard error says why it skips one. With DSS_BUILD=source it does not use the release.
find_gateway() {
    local other why first
    sources=$(sum_of_sources) || { printf 'gateway: cannot read the sources in gateway/\n' >&2 && return 1; }
    program=$built/$program_name
    ! is_current "$built" || return 0
    first=$other
    cache=${XDG_CACHE_HOME:-${HOME-}/.cache}/dss/gateway-$sources
    program=$cache/$program_name
    ! is_current "$cache" || return 0
    if [ "${DSS_BUILD-}" = source ]; then
        why='a build was asked for'
    elif read_made "$record" && [ "${made[sources]-}" = "$sources" ] && ! install_missing "${libraries[@]}"; then
        why="the release needs $needs"
    elif take_release; then
        [ -z "$first" ] || printf 'gateway: %s: running the release\n' "$first" >&2
        return 0
    fi
    printf 'gateway: %s: building the gateway, which takes minutes\n' "$why" >&2
    build_gateway || { printf 'gateway: the gateway could not be built; see the output above\n' >&2 && return 1; }
}

# Compares the release with a gateway that was built from these sources, and prints the result. Fails if the release must
# be made again.
compare_gateway() {
    local why='' stray same again='run scripts/release --gateway, and commit the files that it makes'
    stray=$(strays)
    [ -z "$stray" ] || { printf 'git does not track these files, so a clone lacks them; add or remove them: %s\n' "$stray" && return 1; }
    sources=$(sum_of_sources) && room=$(mktemp -d) || return 1
    if ! unpack "$room/$program_name"; then
        printf '%s: %s\n' "$why" "$again"
        forget
        return 1
    fi
    same=no
    ! cmp -s -- "$room/$program_name" "$1" || same=yes
    forget
    if [ "$same" = yes ]; then
        printf 'the release equals the gateway that was built here, byte for byte\n'
    elif [ "${made[tools]-}" != "$(tools)" ]; then
        printf 'the release was made of these sources with other packages: the programs are not compared\n'
    else
        printf 'the release differs from the gateway that was built here: %s\n' "$again"
        return 1
    fi
}
