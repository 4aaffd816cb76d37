# shellcheck shell=sh disable=SC2154
# Files that are not as they should be: each gets its number, or a message and no report; never release=yes.
card=examples/copy.card
pack=examples/copy.pack
odd=$work/odd
mkdir "$odd"

reports "as it should be" "0 0 0 yes" ./judge $card $pack
sed 's/$/\r/' $card >"$odd/crlf.card"
reports "a carriage return at each line's end" "1 1 0 no" ./judge "$odd/crlf.card" $pack
{ printf '\357\273\277'; cat $card; } >"$odd/mark.card"
reports "a byte order mark" "1 1 0 no" ./judge "$odd/mark.card" $pack
: >"$odd/empty"
reports "an empty card" "1 1 0 no" ./judge "$odd/empty" $pack
reports "an empty pack" "2 0 0 no" ./judge $card "$odd/empty"
head -n 6 $card >"$odd/six.card"
reports "a card of six lines" "1 7 0 no" ./judge "$odd/six.card" $pack
printf %s "$(cat $card)" >"$odd/unended.card"
reports "a last line without its line feed" "1 7 0 no" ./judge "$odd/unended.card" $pack
{ cat $card; echo; } >"$odd/blank.card"
reports "an empty line behind the card" "1 8 0 no" ./judge "$odd/blank.card" $pack
{ cat $card; head -c 8 $pack; } >"$odd/behind.card"
tail -c +9 $pack >"$odd/behind.pack"
reports "eight bytes moved from the pack to the card" "1 8 0 no" ./judge "$odd/behind.card" "$odd/behind.pack"
{ cat $pack; printf x; } >"$odd/long.pack"
reports "a byte too many" "2 0 0 no" ./judge $card "$odd/long.pack"
head -c 23 $pack >"$odd/short.pack"
reports "a byte too few" "2 0 0 no" ./judge $card "$odd/short.pack"
head -c 3000000 /dev/zero >"$odd/zeros"
reports "three million zeros for a pack" "2 0 0 no" ./judge $card "$odd/zeros"
reports "three million zeros for a card" "1 1 0 no" ./judge "$odd/zeros" $pack
reports "the two exchanged" "1 1 0 no" ./judge $pack $card

answers "no such card" 2 ./judge "$odd/nowhere.card" $pack
answers "no such pack" 2 ./judge $card "$odd/nowhere.pack"
answers "a folder for a card" 2 ./judge "$odd" $pack
answers "a folder for a pack" 2 ./judge $card "$odd"
answers "a device" 2 timeout 20 ./judge $card /dev/zero
answers "no argument" 2 ./judge
answers "one argument" 2 ./judge $card
answers "three arguments" 2 ./judge $card $pack $pack
answers "an unknown option" 2 ./judge --alles examples

# The program by itself: what it can't read it tells, and it writes no report.
run target/bin/judge_files "$odd" $pack
holds "judge_files: a folder for a card is told" grep -q "$odd: Is a directory" "$work/err"
holds "judge_files: no report on it" [ ! -s "$work/out" ]
run target/bin/judge_files $card "$odd/nowhere.pack"
holds "judge_files: a missing pack is told" grep -q "nowhere.pack: No such file" "$work/err"
holds "judge_files: no report on that" [ ! -s "$work/out" ]
run target/bin/judge_files $card
holds "judge_files: usage" grep -q usage "$work/err"
target/bin/judge_files $card $pack >/dev/full 2>"$work/err"
holds "judge_files: a full output is told" grep -q "not written" "$work/err"
# So with standard input: a folder, and a closed one.
for fault in '<.' '<&-'; do
    run sh -c "target/bin/judge_pack $fault"
    holds "judge_pack: $fault is told" grep -q "^judge: standard input: " "$work/err"
    holds "judge_pack: no report on $fault" [ ! -s "$work/out" ]
done

# A report that is lost.
./judge $card $pack >/dev/full 2>"$work/err"
holds "a full output is exit status 2" [ $? -eq 2 ]
holds "a full output is told" grep -q "not written" "$work/err"
./judge $card $pack >&- 2>"$work/err"
holds "a closed output is exit status 2" [ $? -eq 2 ]
holds "a closed output is told" grep -q "not written" "$work/err"
{ ./judge $card $pack 2>"$work/err"; echo $? >"$work/lost"; } | :
holds "a closed pipe is told" grep -q "not written" "$work/err"
holds "a closed pipe is exit status 2" [ "$(cat "$work/lost")" -eq 2 ]
./judge --all examples >/dev/full 2>"$work/err"
holds "--all: a full output is exit status 2" [ $? -eq 2 ]
