# Debian 12's packages of the gateway, for scripts that set `top` to the directory of the repository.

# What a built gateway and gateway/run need, and what builds and tests it.
libraries=(libs2-0 libabsl20220623 libssl3 zlib1g openssl curl)
packages=(g++ make libs2-dev libboost-dev nlohmann-json3-dev libtoml11-dev libssl-dev zlib1g-dev openssl curl)

# Installs the given packages that are missing.
install_missing() {
    local name
    local -a missing=() as_root=()
    for name in "$@"; do
        [ "$(dpkg-query -W -f '${db:Status-Status}' "$name" 2>/dev/null)" = installed ] || missing+=("$name")
    done
    [ "${#missing[@]}" != 0 ] || return 0
    [ "$(id -u)" = 0 ] || as_root=(sudo)
    "${as_root[@]}" apt-get update &&
        "${as_root[@]}" env DEBIAN_FRONTEND=noninteractive apt-get install -y --no-install-recommends "${missing[@]}" && return
    printf 'gateway: packages %s are missing and apt-get cannot install them; install them by hand\n' "${missing[*]}"
    return 1
} >&2

# Builds the gateway in a directory, with further arguments for make.
build() {
    make --no-print-directory -C "$top/gateway" -j "${JOBS:-$(nproc)}" BUILD="$1" "${@:2}" >&2
}
