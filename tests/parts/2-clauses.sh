# shellcheck shell=sh disable=SC2154,SC2046,SC2086
# Where clauses lie: rule 22, which is asked directly after 6 at each quadword, against the openers before it. Packs made word by word.
card=$work/clauses.card
pack=$work/clauses.pack

# laid WHAT 'VERDICT PLACE SLOT RELEASE' WORD..: the report on a pack of these words, by a card that grants registers 0 and 1 and no stack.
laid() {
    what=$1 wanted=$2
    shift 2
    bytes "$@" >"$pack"
    sed "s/^quads=.*/quads=$(($# / 2))/" examples/copy.card >"$card"
    reports "clauses: $what" "$wanted" ./judge "$card" "$pack"
}

# Openers: alu ADDR SLOTS; tex, vtx and vtx_tc ADDR FETCHES, eight at most.
alu() {
    printf '%08X %08X' "$1" $((0xA0000000 + (($2 - 1) << 18)))
}
tex() {
    printf '%08X %08X' "$1" $((0x80800000 + (($2 - 1) << 10)))
}
vtx() {
    printf '%08X %08X' "$1" $((0x81000000 + (($2 - 1) << 10)))
}
vtx_tc() {
    printf '%08X %08X' "$1" $((0x81800000 + (($2 - 1) << 10)))
}
end="00000000 00200000"
zeros="00000000 00000000"
mov="80000000 00200C90"
sample="00000010 F00D1001 68800000 00000000"
# Two quadwords that are two ALU instructions, and a vertex fetch as well.
either="80000000 00000C80 80000000 00000000"

yes="0 0 0 yes"
laid "in falling order, one at the other's end" "$yes" $(alu 7 2) $(alu 6 1) $(tex 4 1) $end $sample $mov $mov $mov
laid "one opened again, with a set locked" "$yes" $(alu 3 1) 80000003 A0000000 $end $mov
laid "one opened by VTX, ALU and VTX_TC" "$yes" $(vtx 4 1) $(alu 4 2) $(vtx_tc 4 1) $end $either

laid "VTX at an odd quadword" "22 0 0 no" $(vtx 3 1) $end $zeros $zeros $zeros
laid "VTX_TC at an odd quadword" "22 0 0 no" $(vtx_tc 3 1) $end $zeros $zeros $zeros
laid "VTX at an odd quadword, where ALU has opened the same" "22 1 0 no" $(alu 3 2) $(vtx 3 1) $end $either

laid "a tail of one far before it" "22 4 0 no" $(alu 6 2) $(alu 8 1) $(alu 9 2) $(alu 11 1) $(alu 7 1) $end $mov $mov $mov $mov $mov $mov
laid "a tail of one that is opened twice" "22 2 0 no" $(alu 4 2) $(alu 4 2) $(alu 5 1) $end $mov $mov
laid "a tail, with a set locked" "22 1 0 no" $(alu 3 2) 80000004 A0000000 $end $mov $mov
laid "the end of one and the beginning of another" "22 1 0 no" $(alu 4 2) $(alu 3 2) $end $mov $mov $mov
laid "the beginning alone" "22 1 0 no" $(alu 3 2) $(alu 3 1) $end $mov $mov
laid "the beginning, and more" "22 1 0 no" $(alu 3 1) $(alu 3 2) $end $mov $mov
laid "the middle" "22 1 0 no" $(alu 3 3) $(alu 4 1) $end $mov $mov $mov
laid "one on both sides of another" "22 1 0 no" $(alu 4 1) $(alu 3 3) $end $mov $mov $mov
laid "half of a fetch" "22 1 0 no" $(tex 4 1) $(alu 5 1) $end $zeros $sample
laid "a fetch of two" "22 1 0 no" $(tex 4 2) $(tex 6 1) $end $zeros $sample $sample

# The order at one quadword: 5 and 6 before it; 8, 10, 15 and 16 behind it.
laid "COND, and odd" "5 0 0 no" 00000003 80800100 $end $zeros $sample
laid "past the pack's end, and odd" "6 0 0 no" $(tex 3 2) $end $zeros $sample
laid "in the control flow, and odd" "6 0 0 no" $(tex 1 1) $end $sample
laid "past the pack's end, and half shared" "6 1 0 no" $(alu 3 1) $(alu 3 2) $end $mov
laid "odd, and no fetch" "22 0 0 no" $(tex 3 1) $end $zeros $zeros $zeros
laid "half shared, and no LAST" "22 1 0 no" $(alu 3 2) $(alu 3 1) $end 00000000 00200C90 $mov
laid "half shared, and a register not granted" "22 1 0 no" $(alu 4 1) $(alu 3 2) $end 80000000 00400C90 $mov
laid "half shared, and a frame too many" "22 1 0 no" $(alu 3 2) 00000004 A4000000 $end $mov 801F0000 0000100C

# And at two: behind all that is asked of an earlier one in the first pass, before all of a later one and before the second pass.
position="C000A000 94000688"
laid "7, then odd" "7 0 0 no" $position $(tex 3 1) $end $sample
laid "odd, then 7" "22 0 0 no" $(tex 3 1) $position $end $sample
laid "15, then odd" "15 0 0 no" $(alu 5 1) $(tex 3 1) $end $sample 80000000 00400C90
laid "16, then odd" "16 0 0 no" 00000005 A4000000 $(tex 3 1) $end $sample 801F0000 0000100C
laid "18, then odd" "22 1 0 no" 00000009 85000000 $(tex 3 1) $end $sample

# 511 openers from the pack's end down, two slots each; ADDR and COUNT of the last one as given. Then 511 of one clause.
many() {
    awk -v addr="$2" -v count="$3" -v step="$1" '
        function put(word) { printf "\\%03o\\%03o\\%03o\\%03o", word % 256, int(word / 256) % 256, int(word / 65536) % 256, int(word / 16777216) }
        function opener(addr, count) { put(addr); put(2684354560 + 262144 * count) }
        BEGIN {
            for (i = 510; i > 0; i--) opener(512 + step * i, 1)
            opener(addr, count)
            put(0); put(2097152)
            for (i = 0; i < 1022; i++) { put(2147483648); put(2100368) }
        }'
}
sed 's/^quads=.*/quads=1534/' examples/copy.card >"$card"
while read -r step addr count wanted; do
    # shellcheck disable=SC2059 # the format is the bytes
    printf "$(many "$step" "$addr" "$count")" >"$pack"
    reports "clauses: 511 openers, $step $addr $count" "$wanted" ./judge "$card" "$pack"
done <<END
2 512 1 0 0 0 yes
2 1533 0 22 510 0 no
2 1531 1 22 510 0 no
2 1532 1 0 0 0 yes
0 512 1 0 0 0 yes
0 513 0 22 510 0 no
0 513 1 22 510 0 no
0 514 1 0 0 0 yes
END
