# shellcheck shell=sh disable=SC2154
# Where the judge stands and where it is called from; and that a stale one never answers.
card=$root/examples/copy.card
pack=$root/examples/copy.pack
yes="0 0 0 yes"

mkdir "$work/else where"
ln -s "$root/judge" "$work/else where/judge"
reports "a link to judge" "$yes" "$work/else where/judge" "$card" "$pack"
cp "$card" "$work/else where/-my card"
cp "$pack" "$work/else where/my pack"
cd "$work/else where" || exit 2
reports "another folder, blanks and a dash in names" "$yes" "$root/judge" -- "-my card" "my pack"
cd "$root" || exit 2

holds "--help" sh -c './judge --help | grep -q "usage: judge CARD PACK"'
holds "--version" sh -c './judge --version | grep -qF "$(cat VERSION)"'

# A checkout that can't be written, by somebody else than its owner; with and without a kit. All in the work folder, which anybody may enter.
cp "$card" "$pack" "$work"
card=$work/copy.card
pack=$work/copy.pack
copy="$work/a copy"
checkout "$copy" judge
chmod -R a-w,a+rX "$copy"
reports "a read-only checkout" "$yes" as_nobody "$copy/judge" "$card" "$pack"
reports "a checkout without the kit" "$yes" without_kit "$copy/judge" "$card" "$pack"
cp "$pack" "$work/secret.pack"
chmod 0 "$work/secret.pack"
answers "a pack that can't be read" 2 as_nobody "$copy/judge" "$card" "$work/secret.pack"
chmod -R u+w "$copy"

# A source that was changed and has an old time: the program is not of it any more.
sed -i 's/"release="/"Release="/' "$copy/crates/report/src/lib.rt"
touch -d 2001-01-01 "$copy/crates/report/src/lib.rt"
answers "a changed source with an old time" 2 without_kit "$copy/judge" "$card" "$pack"
# It would be proved now, if nobody else were at it.
# shellcheck disable=SC2016 # expanded by the inner shell
flock "$copy/target/built/lock" sh -c '
    timeout 30 "$1/judge" "$2" "$3" >"$4/out" 2>"$4/err" &
    while kill -0 $! 2>/dev/null && ! grep -q waiting "$4/err"; do sleep 0.1; done
    kill $!
    wait' sh "$copy" "$card" "$pack" "$work"
holds "another build is waited for" grep -qx 'judge: waiting for another build in this folder' "$work/err"
holds "and nothing is reported" [ ! -s "$work/out" ]
cp crates/report/src/lib.rt "$copy/crates/report/src/lib.rt"
reports "the source as it was" "$yes" without_kit "$copy/judge" "$card" "$pack"
rm -f "$copy/target/bin/judge_files"
printf '#!/bin/sh\nprintf "build=production\\nverdict=0\\nplace=0\\nslot=0\\nrelease=yes\\n"\n' >"$copy/target/bin/judge_files"
chmod 755 "$copy/target/bin/judge_files"
answers "another program in its place" 2 without_kit "$copy/judge" "$card" "$pack"
rm -rf "$copy/target"
answers "no program and no kit" 2 without_kit "$copy/judge" "$card" "$pack"
