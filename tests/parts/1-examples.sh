# shellcheck shell=sh disable=SC2154
# The examples: each pack gets the report beside it, by ./judge, by judge_pack and by --all, and examples/README.md says the same.

holds "judge_pack is built" tools/build judge_files judge_pack

for card in examples/*.card; do
    name=${card%.card}
    run ./judge "$card" "$name.pack"
    case $(tail -n 1 "$name.report") in release=yes) wanted=0 ;; *) wanted=1 ;; esac
    holds "$name: its report" cmp -s "$work/out" "$name.report"
    holds "$name: exit status $status" [ "$status" -eq "$wanted" ]
    cat "$card" "$name.pack" | target/bin/judge_pack >"$work/piped"
    holds "$name: the same on standard input" cmp -s "$work/piped" "$name.report"
done

# What was judged is named by its checksum.
run ./judge examples/copy.card examples/copy.pack
holds "the card's checksum is told" grep -q "^card $(sha256sum <examples/copy.card | cut -d ' ' -f 1) examples/copy.card$" "$work/err"
holds "the pack's checksum is told" grep -q "^pack $(sha256sum <examples/copy.pack | cut -d ' ' -f 1) examples/copy.pack$" "$work/err"

# README's table has each example with its verdict, place and slot, and no other.
for report in examples/*.report; do
    name=$(basename "$report" .report)
    echo "$name $(sed -n 's/^verdict=//p; s/^place=//p; s/^slot=//p' "$report" | tr '\n' ' ')"
done | sort >"$work/reports"
sed -n 's/^| \([a-z0-9-]*\) | \([0-9]*\) | \([0-9]*\) | \([0-9]*\) |.*/\1 \2 \3 \4 /p' examples/README.md | sort >"$work/table"
holds "examples/README.md agrees with the reports" cmp -s "$work/reports" "$work/table"
holds "every pack has a report" [ "$(ls examples/*.pack | wc -l)" -eq "$(wc -l <"$work/reports")" ]

# A line each, a summary, and the exit status.
run ./judge --all examples
holds "--all: exit status 1, since some are refused" [ "$status" -eq 1 ]
for report in examples/*.report; do
    lines=$(sed -n '2,5p' "$report" | paste -sd '\t' -)
    holds "--all: $report" grep -qxF "${report%.report}	$lines" "$work/out"
done
holds "--all: summary" grep -qx "$(ls examples/*.card | wc -l) in all: $(grep -l release=yes examples/*.report | wc -l) released, $(grep -l release=no examples/*.report | wc -l) not released, 0 not judged" "$work/out"

mkdir -p "$work/many/deep er"
for n in 1 2 3; do
    cp examples/copy.card "$work/many/deep er/pack $n.card"
    cp examples/copy.pack "$work/many/deep er/pack $n.pack"
done
answers "--all: all are released, in a folder below with blanks in names" 0 ./judge --all "$work/many"
cp examples/copy.pack "$work/many/alone.pack"
answers "--all: a pack without a card" 1 ./judge --all "$work/many"
holds "--all: it is named" grep -q "alone	no card	release=no" "$work/out"
mv "$work/many/alone.pack" "$work/many/alone.card"
answers "--all: a card without a pack" 1 ./judge --all "$work/many"
holds "--all: it is named, too" grep -q "alone	no pack	release=no" "$work/out"
mkdir "$work/many/alone.pack" "$work/empty"
run ./judge --all "$work/many"
holds "--all: a folder for a pack is not judged" [ "$status" -eq 2 ]
holds "--all: why is told" grep -qx "judge: not a file: $work/many/alone.pack" "$work/err"
answers "--all: nothing to judge" 2 ./judge --all "$work/empty"
answers "--all: no such folder" 2 ./judge --all "$work/nowhere"

# Hundreds take seconds.
mkdir "$work/hundreds"
n=0
while [ $n -lt 300 ]; do
    n=$((n + 1))
    cp examples/copy.card "$work/hundreds/$n.card"
    cp examples/copy.pack "$work/hundreds/$n.pack"
done
began=$(date +%s)
answers "--all: 300 packs" 0 ./judge --all "$work/hundreds"
holds "--all: in seconds" [ $(($(date +%s) - began)) -le 15 ]
