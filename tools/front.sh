# shellcheck shell=sh disable=SC2154 # `here`, `name`, `calls`, `thing`, `past`, and what `read_lines` sets, are the scripts'
# What ./judge, ./explain and ./fetch share; ./install puts it below share/zlatomruk. Sourced where `here` is the script's folder, `name` its own
# name and `calls` its program's; the script has `usage`, and `read_lines`, which tests what was written. For `ask`, `thing` is what the program
# writes and `past` what is done to a pack.
trap '' PIPE # a closed pipe is then a failed write, which is told
newline='
'

tell() {
    printf '%s: %s\n' "$name" "$*" >&2
}

fail() {
    tell "$@"
    exit 2
}

# In a checkout the program is proved and built where its sources have changed; an installed one stands beside the script.
find_program() {
    if [ -f "$here/crates.txt" ]; then
        "$here/tools/build" --for "$name" "$calls" || exit 2
        program=$here/target/bin/$calls
    else
        program=$here/$calls
    fi
    [ -x "$program" ] || fail "no program: $program"
}

version() {
    if [ -f "$here/crates.txt" ]; then
        number=$(cat "$here/VERSION") && echo "$name $number, in a checkout"
    else
        number=$(cat "$here/../share/zlatomruk/version") && echo "$name $number"
    fi
}

readable() {
    [ -e "$1" ] || { tell "no such file: $1"; return 1; }
    [ -f "$1" ] || { tell "not a file: $1"; return 1; }
    [ -r "$1" ] || { tell "cannot be read: $1"; return 1; }
}

# The SHA-256 of a file, in `sum`.
sum_of() {
    sum=$(sha256sum <"$1") || return 1
    sum=${sum%% *}
}

# is_still SUM FILE: the checksums are taken before and behind the program, so that what is named is what it has read.
is_still() {
    sum_of "$2" && [ "$sum" = "$1" ]
}

# Calls the program on a card and a pack: what it writes is in `written`, and `read_lines` has tested it. Where it wrote nothing, it has said why.
ask() {
    readable "$1" && readable "$2" || return 1
    sum_of "$1" && card_sum=$sum && sum_of "$2" && pack_sum=$sum || return 1
    written=$("$program" "$1" "$2") || { tell "the program ended early"; return 1; }
    { is_still "$card_sum" "$1" && is_still "$pack_sum" "$2"; } || { tell "changed while it was $past: $1 or $2"; return 1; }
    take_apart || { [ -z "$written" ] || tell "no $thing"; return 1; }
    printf 'card %s %s\npack %s %s\n' "$card_sum" "$1" "$pack_sum" "$2" >&2
}

take_apart() {
    IFS=$newline
    set -f
    # shellcheck disable=SC2086 # taken apart into lines
    set -- $written
    set +f
    unset IFS
    read_lines "$@"
}

is_number() {
    case $1 in "" | *[!0-9]* | 0?*) return 1 ;; esac
}

# The options that all scripts have, which are answered here. True if the first argument is `--`, which is to be taken off.
ends_options() {
    case ${1-} in
    --help) usage; exit ;;
    --version) version; exit ;;
    --) return 0 ;;
    -*) usage >&2; exit 2 ;;
    esac
    return 1
}

# The script's arguments, where they are a card and a pack.
one() {
    ! ends_options "$@" || shift
    [ $# -eq 2 ] || { usage >&2; exit 2; }
    find_program
    ask "$1" "$2" || exit 2
    printf '%s\n' "$written" || fail "the $thing was not written"
}
