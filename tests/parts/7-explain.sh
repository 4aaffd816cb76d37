# shellcheck shell=sh disable=SC2154
# ./explain and its programs: each example gets the lines beside it; what can't be explained gets a message, exit status 2 and no lines.
card=examples/copy.card
pack=examples/copy.pack
refused=examples/register-not-granted

# explains WHAT 'VERDICT PLACE SLOT RULE FOUND LIMIT' COMMAND...: the six lines say so, or verdict=0 alone where it is 0; the exit status agrees.
explains() {
    what=$1 wanted=$2
    shift 2
    run "$@"
    if [ "$wanted" = 0 ]; then
        expected=0
        echo verdict=0
    else
        expected=1
        # shellcheck disable=SC2086 # words
        printf 'verdict=%s\nplace=%s\nslot=%s\nrule=%s\nfound=%s\nlimit=%s\n' $wanted
    fi >"$work/wanted"
    if [ "$status" -eq "$expected" ] && cmp -s "$work/out" "$work/wanted"; then
        pass
    else
        flunk "$what: '$(paste -sd ' ' "$work/out")', exit status $status, not $wanted"
    fi
}

# unexplained WHAT MESSAGE COMMAND...: exit status 2, nothing on standard output, and this at the start of a line on standard error.
unexplained() {
    what=$1 message=$2
    shift 2
    answers "$what" 2 "$@"
    holds "$what: $message" grep -q "^$message" "$work/err"
}

# ---- The examples

holds "the programs that explain are built" tools/build --for explain explain_files explain_pack
for name in examples/*.card; do
    name=${name%.card}
    run ./explain "$name.card" "$name.pack"
    case $(cat "$name.explain") in verdict=0) wanted=0 same=1 ;; *) wanted=1 same=3 ;; esac
    holds "explain: $name: its lines" cmp -s "$work/out" "$name.explain"
    holds "explain: $name: exit status $status" [ "$status" -eq "$wanted" ]
    cat "$name.card" "$name.pack" | target/bin/explain_pack >"$work/piped"
    holds "explain: $name: the same on standard input" cmp -s "$work/piped" "$name.explain"
    holds "explain: $name: the report's verdict, place and slot" [ "$(head -n $same "$name.explain")" = "$(sed -n 2,4p "$name.report" | head -n $same)" ]
done
holds "every pack has an explanation, and no other" [ "$(basename -s .explain examples/*.explain)" = "$(basename -s .pack examples/*.pack)" ]
explains "a debug build that is accepted" 0 ./explain examples/debug-build.card examples/debug-build.pack

# The rules' words: each of the definition's stands beside its number in an example and in docs/USING.md, and no other.
sed -n 's/^.*(\([0-9]*\), "\([a-z-]*\)").*/\1 \2/p' crates/report/specs/Explanation.antt >"$work/words"
awk -F = '$1 == "verdict" { number = $2 } $1 == "rule" { print number, $2 }' examples/*.explain | sort -u | sort -n >"$work/words_shown"
sed -n 's/^| \([0-9]*\) | `\([^`]*\)` |.*/\1 \2/p' docs/USING.md >"$work/words_told"
holds "the definition has words for 1 to 19, and 22" [ "$(cut -d ' ' -f 1 "$work/words" | paste -sd ' ' -)" = "$(seq -s ' ' 1 19) 22" ]
holds "the examples have the rules' words" cmp -s "$work/words" "$work/words_shown"
holds "docs/USING.md has the rules' words" cmp -s "$work/words" "$work/words_told"

# The packs that docs/USING.md goes through, the first as a session.
sed -n '/^## Why a pack/,/\$ echo/s/^    \([a-z]*=.*\)/\1/p' docs/USING.md >"$work/session"
holds "docs/USING.md: the session" cmp -s "$work/session" $refused.explain
for name in fetch-into-a-register-not-granted jump-keeps-its-frame clauses-sharing-a-tail; do
    holds "docs/USING.md: $name" grep -qF "\`$name\`: $(paste -sd , "examples/$name.explain" | sed 's/,/, /g')." docs/USING.md
done

run ./explain $refused.card $refused.pack
holds "explain: the card's checksum is told" grep -q "^card $(sha256sum <$refused.card | cut -d ' ' -f 1) $refused.card$" "$work/err"
holds "explain: the pack's checksum is told" grep -q "^pack $(sha256sum <$refused.pack | cut -d ' ' -f 1) $refused.pack$" "$work/err"

# ---- Odd inputs, of which part 2 has made some

explains "explain: a carriage return at each line's end" "1 1 0 card-line - -" ./explain "$odd/crlf.card" $pack
explains "explain: an empty line behind the card" "1 8 0 card-line - -" ./explain "$odd/blank.card" $pack
explains "explain: an empty card" "1 1 0 card-line - -" ./explain "$odd/empty" $pack
explains "explain: an empty pack" "2 0 0 length - -" ./explain $card "$odd/empty"
explains "explain: three million zeros for a pack" "2 0 0 length - -" ./explain $card "$odd/zeros"

unexplained "no such card to explain" "explain: no such file: $odd/nowhere.card" ./explain "$odd/nowhere.card" $pack
unexplained "no such pack to explain" "explain: no such file: $odd/nowhere.pack" ./explain $card "$odd/nowhere.pack"
unexplained "a folder for a card to explain" "explain: not a file: $odd" ./explain "$odd" $pack
unexplained "a folder for a pack to explain" "explain: not a file: $odd" ./explain $card "$odd"
unexplained "explain: no argument" "usage: explain CARD PACK" ./explain
unexplained "explain: one argument" "usage: explain CARD PACK" ./explain $card
unexplained "explain: three arguments" "usage: explain CARD PACK" ./explain $card $pack $pack
unexplained "explain: an unknown option" "usage: explain CARD PACK" ./explain --all examples

run target/bin/explain_files "$odd" $pack
holds "explain_files: a folder for a card is told" grep -q "^explain: $odd: Is a directory" "$work/err"
holds "explain_files: no lines on it" [ ! -s "$work/out" ]
run target/bin/explain_files $card
holds "explain_files: usage" grep -q "^usage: explain_files CARD PACK" "$work/err"
holds "explain_files: no lines on one argument" [ ! -s "$work/out" ]
target/bin/explain_files $refused.card $refused.pack >/dev/full 2>"$work/err"
holds "explain_files: a full output is told" grep -q "^explain: the explanation was not written" "$work/err"
for fault in '<.' '<&-'; do
    run sh -c "target/bin/explain_pack $fault"
    holds "explain_pack: $fault is told" grep -q "^explain: standard input: " "$work/err"
    holds "explain_pack: no lines on $fault" [ ! -s "$work/out" ]
done

# lost HOW: what was called last has answered 2 and has told it.
lost() {
    holds "explain: $1 is exit status 2" [ "$(cat "$work/lost")" -eq 2 ]
    holds "explain: $1 is told" grep -qx "explain: the explanation was not written" "$work/err"
}
{ ./explain $refused.card $refused.pack >/dev/full; echo $? >"$work/lost"; } 2>"$work/err"
lost "a full output"
{ ./explain $refused.card $refused.pack >&-; echo $? >"$work/lost"; } 2>"$work/err"
lost "a closed output"
{ ./explain $refused.card $refused.pack 2>"$work/err"; echo $? >"$work/lost"; } | :
lost "a closed pipe"

# ---- Places

holds "explain --help" sh -c './explain --help | grep -q "usage: explain CARD PACK"'
holds "explain --version" [ "$(./explain --version)" = "explain $(cat VERSION), in a checkout" ]
ln -s "$root/explain" "$work/else where/explain"
cd "$work/else where" || exit 2
explains "a link to explain, another folder, blanks and a dash in names" 0 ./explain -- "-my card" "my pack"
cd "$root" || exit 2

# A checkout that can't be written, and one without the kit.
copy="$work/another copy"
checkout "$copy" explain
mkdir "$work/example"
cp $refused.card "$work/example/card"
cp $refused.pack "$work/example/pack"
set -- "$work/example/card" "$work/example/pack"
chmod -R a-w,a+rX "$copy"
explains "explain in a read-only checkout" "15 0 0 not-granted 1 1" as_nobody "$copy/explain" "$@"
explains "explain in a checkout without the kit" "15 0 0 not-granted 1 1" without_kit "$copy/explain" "$@"
chmod 0 "$work/example/pack"
unexplained "a pack to explain that can't be read" "explain: cannot be read: $work/example/pack" as_nobody "$copy/explain" "$@"
chmod 644 "$work/example/pack"
chmod -R u+w "$copy"
echo "// changed" >>"$copy/crates/explain/src/lib.rt"
unexplained "explain: a changed source" "explain: the Rattle kit is needed" without_kit "$copy/explain" "$@"
cp crates/explain/src/lib.rt "$copy/crates/explain/src/lib.rt"
explains "explain: the source as it was" "15 0 0 not-granted 1 1" without_kit "$copy/explain" "$@"
rm -f "$copy/target/bin/explain_files"
printf '#!/bin/sh\necho verdict=0\n' >"$copy/target/bin/explain_files"
chmod 755 "$copy/target/bin/explain_files"
unexplained "explain: another program in its place" "explain: the Rattle kit is needed" without_kit "$copy/explain" "$@"
rm -rf "$copy"

# ---- Installed, by part 5

explain="$prefix/bin/explain"
explains "explain installed, without the kit" "15 0 0 not-granted 1 1" without_kit "$explain" "$@"
explains "explain installed, an accepted pack" 0 without_kit "$explain" $card $pack
rm "$work/else where/explain"
ln -s "$explain" "$work/else where/explain"
explains "a link to the installed explain" "15 0 0 not-granted 1 1" without_kit "$work/else where/explain" "$@"
holds "installed explain_pack" sh -c "cat $refused.card $refused.pack | PATH='$work/bin' '$prefix/bin/explain_pack' | cmp -s - $refused.explain"
"$explain" --version >"$work/version"
holds "installed explain --version" [ "$(sed -n 1,2p "$work/version")" = "explain $(cat VERSION)
proved with $(rt version)" ]
for program in judge_files explain_files; do
    holds "installed --version: $program" grep -qx "$program has SHA-256 $(sha256sum <"$prefix/bin/$program" | cut -d ' ' -f 1)" "$work/version"
done

# No more stack than docs/USING.md says, with the longest pack: an accepted one of part 5, and one with numbers at fault.
{ cat $refused.pack; head -c 65512 /dev/zero; } >"$work/longest.pack"
sed 's/quads=.*/quads=8192/' $refused.card >"$work/longest.card"
explained_within_stack() {
    (ulimit -s 256 && "$prefix/bin/explain_files" "$work/$1.card" "$work/$1.pack")
}
run explained_within_stack nops
holds "explain_files: 256 KiB of stack are enough" [ "$(cat "$work/out")" = verdict=0 ]
run explained_within_stack longest
holds "explain_files: 256 KiB of stack are enough for a refused one" cmp -s "$work/out" $refused.explain

# What is shown has the form of an explanation, whatever the program beside the script writes.
mkdir "$work/forms"
cp -r "$prefix/bin" "$prefix/share" "$work/forms"
program="$work/forms/bin/explain_files"
# formed LINES: a program that writes them.
formed() {
    printf '#!/bin/sh\nprintf "%s"\n' "$1" >"$program"
}
formed 'verdict=15\nplace=0\nslot=0\nrule=not-granted\nfound=300\nlimit=256\n'
explains "the form of an explanation" "15 0 0 not-granted 300 256" "$work/forms/bin/explain" "$@"
formed 'verdict=0\n'
explains "the form of an accepted pack's" 0 "$work/forms/bin/explain" "$@"
for lines in \
    'verdict=15\n' \
    'verdict=0\nplace=0\n' \
    'place=0\n' \
    'verdict=0\nplace=0\nslot=0\nrule=target\nfound=-\nlimit=-\n' \
    'verdict=15\nplace=0\nslot=0\nrule=target\nfound=-\n' \
    'verdict=15\nplace=0\nslot=0\nrule=target\nfound=-\nlimit=-\nmore=1\n' \
    'verdict=15\nslot=0\nplace=0\nrule=target\nfound=-\nlimit=-\n' \
    'verdict=15\nplace=0\nslot=0\n\nrule=target\nfound=-\nlimit=-\n' \
    'verdict=15\nplace=0\nslot=0\nrule=target\nlimit=-\nfound=-\n' \
    'verdict=x\nplace=0\nslot=0\nrule=target\nfound=-\nlimit=-\n' \
    'verdict=15\nplace=\nslot=0\nrule=target\nfound=-\nlimit=-\n' \
    'verdict=15\nplace=0\nslot=01\nrule=target\nfound=-\nlimit=-\n' \
    'verdict=15\nplace=0\nslot=0\nrule=Target 1\nfound=-\nlimit=-\n' \
    'verdict=15\nplace=0\nslot=0\nrule=target\nfound=1\nlimit=-\n' \
    'verdict=15\nplace=0\nslot=0\nrule=target\nfound=-1\nlimit=2\n' \
    'build=production\nverdict=0\nplace=0\nslot=0\nrelease=yes\n'; do
    formed "$lines"
    unexplained "not an explanation: $lines" "explain: no explanation" "$work/forms/bin/explain" "$@"
done
printf '#!/bin/sh\necho "explain: told" >&2\n' >"$program"
unexplained "a program that writes nothing" "explain: told" "$work/forms/bin/explain" "$@"
printf '#!/bin/sh\necho verdict=0\nexit 1\n' >"$program"
unexplained "a program that ends early" "explain: the program ended early" "$work/forms/bin/explain" "$@"
for which in 1 2; do
    printf '#!/bin/sh\nprintf x >>"$%d"\necho verdict=0\n' $which >"$program"
    unexplained "a file that changes meanwhile, argument $which" "explain: changed while it was explained: " "$work/forms/bin/explain" "$@"
done
rm "$program"
unexplained "explain: no program beside it" "explain: no program: " "$work/forms/bin/explain" "$@"
rm "$work/forms/share/zlatomruk/front.sh"
unexplained "explain: without what it shares with judge" "explain: no file: " "$work/forms/bin/explain" "$@"
