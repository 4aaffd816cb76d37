# shellcheck shell=sh disable=SC2154 # `name` and `now` are the scripts'
# What the scripts that prove and build share. Sourced with the repository's folder as the current one.
LC_ALL=C
export LC_ALL

fail() {
    echo "$name: $*" >&2
    exit 2
}

need_kit() {
    command -v rt >/dev/null || fail "the Rattle kit is needed to prove and build this: no command rt. An installed judge needs none (./install)"
}

# ---- What was built, by checksums and not by times, which tar, rsync and git set as they like: target/built/NAME keeps one of all sources, the
# kit's identity, and one of the file that was built. Programs are target/bin/NAME, copies of what rt leaves in their crates' out/, which it empties
# at times.

sources() {
    sources_of crates | sort -z | xargs -0 sha256sum | sha256sum
}

# sources_of FOLDER..: crates.txt and what these of crates/ hold, but for what rt makes in the crates' out/. Each name ends in a zero byte.
sources_of() {
    find crates.txt "$@" -regex 'crates/[^/]*/out' -prune -o -type f -print0
}

# Without a kit there is none to differ from the one that it was built with.
kit() {
    if command -v rt >/dev/null; then rt version; else sed -n 's/^kit //p' "target/built/$1"; fi
}

# described NAME FILE, where `now` holds the sources' checksum
described() {
    echo "sources $now"
    echo "kit $(kit "$1")"
    echo "file $(sha256sum <"$2")"
}

is_built() {
    [ -r "target/built/$1" ] && [ -r "$2" ] && [ "$(described "$1" "$2")" = "$(cat "target/built/$1")" ]
}

note_built() {
    described "$1" "$2" >"target/built/$1" || fail "target/built can't be written"
}

# Two builds at once would take away what the other has just made, so the second waits here. It asks again what is left to build.
begin_building() {
    need_kit
    mkdir -p target/built 2>/dev/null && [ -w target ] && [ -w target/built ] || fail "it has to be built, and target/ can't be written"
    command -v flock >/dev/null || fail "no command flock (Debian: package util-linux)"
    exec 9>target/built/lock || fail "target/built can't be written"
    flock -n 9 || { echo "$name: waiting for another build in this folder" >&2; flock 9; } || fail "target/built can't be locked"
}

end_building() {
    [ "$(sources)" = "$now" ] || fail "the crates changed while they were proved: call it again"
}

# ---- Proving

# The crates that these need, themselves among them, in the order in which rt proves them, a line each: crates.txt has NAME: NAMES.
needed() {
    sed 's/#.*//' crates.txt | awk -F : -v wanted="$*" '
        { split($1, said, " "); if (said[1] != "") on[said[1]] = $2 }
        function visit(name, uses, n, i) {
            if (!(name in on) || name in seen) return
            seen[name] = 1
            n = split(on[name], uses, " ")
            for (i = 1; i <= n; i++) visit(uses[i])
            print name
        }
        END { n = split(wanted, names, " "); for (i = 1; i <= n; i++) visit(names[i]) }'
}

# begin_proving NAME..: what `build` is to prove.
begin_proving() {
    listed=$(needed "$@")
    count=$(printf '%s\n' "$listed" | wc -l)
    echo "$name: proving what has changed of $count crates; the first time this takes some minutes" >&2
}

# build NAME FILE COMMAND..: what rt makes of a crate, in its out/, by this command in its folder, which also proves what it needs.
build() {
    of=$1 file=crates/$1/out/$2
    shift 2
    # What is not known to be of the last build is not taken over: where its file is missing rt makes it anew. Whether it stands there is what tells: a
    # program is also run, and its exit status is rt's then.
    rm -f "$file" "$file.stamp"
    (cd "crates/$of" && "$@" </dev/null 2>&1) | shown "$file"
}

# rt's lines, of which those that say that a crate was proved just now are progress. What a program writes comes behind them.
shown() {
    crate='' last=''
    while IFS= read -r line; do
        case $line in
        "rt: running "*) break ;;
        "rt: waiting "* | "rt: "*"waiting for it"*) echo "$name: ${line#rt: }" >&2 ;;
        "crate "*": modules "*) crate=${line#crate } crate=${crate%%:*} ;;
        "logic=proved "*) echo "$name: $(printf '%s\n' "$listed" | grep -nx "$crate" | cut -d : -f 1) of $count crates proved: $crate" >&2 ;;
        esac
        last=$line
    done
    cat >/dev/null
    [ -f "$1" ] || fail "not proved: $last"
}
