# Functions of `setup`: the table, certificates, files that it installs, and what it says. `setup` sets `left`, `patient`, `month`, `root`,
# `no_start`, and `units`: the units that read the files that it installs next.
# shellcheck shell=bash disable=SC2034,SC2154

say() {
    printf 'setup: %s\n' "$1"
}

ok() {
    say "ok: $1"
}

# Notes what this run cannot do yet.
later() {
    left+=("$1")
}

give_up() {
    printf 'setup: %s\n' "$1" >&2
    exit 1
}

# Ends with what is left.
finish() {
    local it
    rm -f -- new.settings
    for it in ${left[@]+"${left[@]}"}; do
        say "left: $it"
    done
    [ "${#left[@]}" = 0 ] || exit 2
    say 'all is done'
    exit 0
}

# Runs a command, whose output is shown only if it fails.
run() {
    local said
    said=$("$@" 2>&1) || give_up "$* failed: $said"
}

# Gives up if a command is missing. Each word is COMMAND:PACKAGE.
need() {
    local it
    for it in "$@"; do
        command -v "${it%%:*}" >/dev/null || give_up "${it%%:*} is missing: apt-get install ${it#*:}"
    done
}

# Waits until a command succeeds, at most so many seconds.
until_true() {
    local end=$((SECONDS + $1))
    shift
    until "$@"; do
        [ "$SECONDS" -lt "$end" ] || return 1
        sleep 0.5
    done
}

# ---- etcd and instances

# Prints on if etcd refuses a request without a user, off if it answers one, and else unknown.
auth_of() {
    local said
    if ! listens; then
        printf 'unknown\n'
    elif said=$(etcdctl "${patient[@]}" get in/ --limit=1 --keys-only 2>&1); then
        printf 'off\n'
    elif [[ $said == *'user name is empty'* ]]; then
        printf 'on\n'
    else
        printf 'unknown\n'
    fi
}

# Says at the end whether authentication is on. It keeps the status.
tell_auth() {
    local status=$? auth
    auth=$(auth_of)
    if [ "$auth" = on ]; then
        say "etcd's authentication is on"
    elif [ "$auth" = off ] && runs_pool; then
        say "ETCD'S AUTHENTICATION IS OFF: anyone who reaches port 2379 of 127.0.0.1 can write the log; setup keeper turns it on"
    else
        say "the member of this machine does not answer, so it is unknown whether etcd's authentication is on"
    fi
    exit "$status"
}

listens() {
    (exec 3<>/dev/tcp/127.0.0.1/2379) 2>/dev/null
}

# Returns whether a user without a part in the pool reaches etcd.
others_reach_etcd() {
    setpriv --reuid=65534 --regid=65534 --clear-groups bash -c 'exec 3<>/dev/tcp/127.0.0.1/2379' 2>/dev/null
}

# Returns whether etcd has the members of the table. Debian's package starts another etcd.
runs_pool() {
    local said it
    listens && said=$(etcdctl "${patient[@]}" member list 2>/dev/null) || return 1
    for it in "${organizations[@]}"; do
        [[ $said == *", $(peer_of "$it"), "* ]] || return 1
    done
}

# Returns whether the member of this machine reaches a majority. This request needs no user.
has_leader() {
    [[ $(curl -s --max-time 10 http://127.0.0.1:2379/health) == *'"health":"true"'* ]]
}

# Returns whether the member has a log.
has_log() {
    compgen -G "$root/var/lib/etcd/dss/member/wal/*.wal" >/dev/null
}

health() {
    curl -s --max-time 10 "http://127.0.0.1:$1/health" || printf 'no response\n'
}

is_serving() {
    [[ $(health "$1") == serving* ]]
}

# Prints the newest file of the airspace, if there is one.
newest_file() {
    [ ! -d /var/lib/dss/pool ] || find /var/lib/dss/pool -name '*-*.db' | sort | tail -n 1
}

# Starts a unit: start HOW [--no-block] UNIT. If one of its files has changed since its last start, also in a run before, it does HOW.
start() {
    local unit=${!#} how=start
    [ -z "$no_start" ] || return 0
    run systemctl daemon-reload
    run systemctl enable --quiet "$unit"
    [ ! -e "$unit.stale" ] || how=$1
    run systemctl "$how" "${@:2}"
    rm -f -- "$unit.stale"
}

# ---- the table

# Sets `organizations`, `addresses`, and `address` and `instances_of` by the names of organizations.
read_table() {
    local file=$1 line number=0
    organizations=() addresses=()
    declare -gA address=() instances_of=()
    [[ -f $file && -r $file ]] || give_up "cannot read the table $file"
    while IFS= read -r line || [ -n "$line" ]; do
        number=$((number + 1))
        [[ $line =~ ^[[:space:]]*(#.*)?$ ]] || read_line "$file:$number" "$line"
    done <"$file"
    [ "${#organizations[@]}" -ge 3 ] || give_up "$file has ${#organizations[@]} organizations; a pool needs three, so that it serves without one of them"
}

read_line() {
    local where=$1 words it other seen=' ' octet='(25[0-5]|2[0-4][0-9]|1[0-9][0-9]|[1-9]?[0-9])'
    [[ $2 != *$'\r'* ]] || give_up "$where: a carriage return; lines end with a line feed alone"
    read -ra words <<<"$2"
    it=${words[0]}
    [[ $it =~ ^[A-Za-z0-9._-]{1,50}$ && ! $it =~ ^[.-] && ! $it =~ [0-9]$ ]] || give_up "$where: $it is no organization: 1 to 50 of A-Z a-z 0-9 . _ -, no . or - at the beginning, and no digit at the end"
    [ -z "${address[$it]-}" ] || give_up "$where: $it is there twice"
    [[ ${words[1]-} =~ ^($octet\.){3}$octet$ || ${words[1]-} =~ ^[0-9a-fA-F]*:[0-9a-fA-F:]+$ ]] || give_up "$where: ${words[1]-nothing} is no IP address"
    [[ " ${addresses[*]-} " != *" ${words[1]} "* ]] || give_up "$where: ${words[1]} is there twice"
    for other in "${words[@]:2}"; do
        [[ $other == "$it"* && ${other#"$it"} =~ ^[1-9][0-9]?$ ]] || give_up "$where: $other is no instance of $it: its name is $it with a number from 1 to 99"
        [[ $seen != *" $other "* ]] || give_up "$where: $other is there twice"
        seen+="$other "
    done
    organizations+=("$it")
    addresses+=("${words[1]}")
    address[$it]=${words[1]}
    instances_of[$it]=${words[*]:2}
}

# Prints the users of etcd of an organization. One without instances needs none.
users_of() {
    [ -n "${instances_of[$1]}" ] || return 0
    tr ' ' '\n' <<<"${1}0 ${instances_of[$1]}"
}

peer_of() {
    case ${address[$1]} in
    *:*) printf 'https://[%s]:2380\n' "${address[$1]}" ;;
    *) printf 'https://%s:2380\n' "${address[$1]}" ;;
    esac
}

# ---- certificates and files

# Checks a certificate: it must be of the CA, of the key, and for the address. Sets `fault` to what is wrong, `ending` if it ends within 30
# days, and `ends` to its end.
check_certificate() {
    local file=$1 key=$2 address=$3 said
    fault='' ending='' ends=''
    if [ ! -s "$file" ]; then
        fault='is absent'
        return
    fi
    said=$(openssl x509 -in "$file" -noout -pubkey -enddate -checkip "$address" 2>&1) || said='no certificate'
    ends=$(sed -n 's/^notAfter=//p' <<<"$said")
    openssl x509 -in "$file" -noout -checkend "$month" >/dev/null 2>&1 || ending=yes
    if ! openssl verify -CAfile ca.crt "$file" >/dev/null 2>&1; then
        fault='is not of ca.crt, or has ended'
    elif [[ $said != *"$key"* ]]; then
        fault='is of another key'
    elif [[ $said != *'does match certificate'* ]]; then
        fault="is not for the address $address"
    fi
}

salt_of() {
    sed -n 's/^salt *= *//p' "$1"
}

# Installs a file: put MODE OWNER GROUP SOURCE FILE. It leaves a right one alone, and replaces a wrong one in one step. If the content
# changes, each unit of `units` has to be started again.
put() {
    local file=$root$5 it
    [ -d "${file%/*}" ] || (umask 022 && run mkdir -p -- "${file%/*}")
    if cmp -s -- "$4" "$file"; then
        [ "$(stat -c '%a %U %G' -- "$file")" != "$1 $2 $3" ] || return 0
    elif [ -z "$root" ]; then
        for it in ${units[@]+"${units[@]}"}; do
            : >"$it.stale"
        done
    fi
    run install -m "$1" -o "$2" -g "$3" -- "$4" "$file.setup-new"
    run mv -- "$file.setup-new" "$file"
}

# Installs a file that the operator may change: put_settings SOURCE FILE. One that the operator has changed stays, by installed.sums. The one
# before the first run stays as FILE.before.
put_settings() {
    local source=$1 file=$2 sum known=''
    if [ -n "$root" ]; then
        put 644 root root "$source" "$file"
        return
    fi
    if [ -e "$file" ] && ! cmp -s -- "$source" "$file"; then
        sum=$(sha256sum <"$file")
        [ ! -e installed.sums ] || known=$(awk -v file="$file" '$2 == file { print $1 }' installed.sums)
        if [ -z "$known" ]; then
            run cp -p --backup=numbered -- "$file" "$file.before"
            say "$file is replaced; the one before is $file.before"
        elif [ "$known" != "${sum%% *}" ]; then
            ok "$file is your own, and stays"
            return
        fi
    fi
    put 644 root root "$source" "$file"
    sum=$(sha256sum <"$file")
    sum="${sum%% *}  $file"
    ! grep -qsxF -- "$sum" installed.sums || return 0
    {
        [ ! -e installed.sums ] || awk -v file="$file" '$2 != file' installed.sums
        printf '%s\n' "$sum"
    } >installed.sums.new
    mv -- installed.sums.new installed.sums
}
