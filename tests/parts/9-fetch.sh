# shellcheck shell=sh disable=SC2154
# ./fetch and its program: the fields of a fetch, and packs with some of them changed. What can't be shown or changed gets a message, exit status 2
# and nothing on standard output.
texture=examples/texture
desk=$work/fetch
mkdir "$desk"
newline='
'

# shows WHAT FILE COMMAND...: these lines, and exit status 0.
shows() {
    what=$1 wanted=$2
    shift 2
    run "$@"
    if [ "$status" -eq 0 ] && cmp -s "$work/out" "$wanted"; then
        pass
    else
        flunk "$what: '$(tr '\n' ' ' <"$work/out" | tr -cd '[:print:]' | head -c 800)', exit status $status, '$(cat "$work/err")'"
    fi
}

# refuses WHAT MESSAGE COMMAND...: exit status 2, nothing on standard output, and this line on standard error.
refuses() {
    what=$1 message=$2
    shift 2
    answers "$what" 2 "$@"
    holds "$what: $message" grep -qxF -- "$message" "$work/err"
    cat "$work/err" >>"$desk/said"
}

# tells WHAT MESSAGE ARGUMENT...: the program by itself, which has no exit status: this line alone on standard error, and nothing on standard output.
tells() {
    what=$1 message=$2
    shift 2
    run target/bin/fetch_fields "$@"
    if [ ! -s "$work/out" ] && [ "$(cat "$work/err")" = "$message" ]; then pass; else flunk "$what: '$(cat "$work/err")', not '$message'"; fi
}

# A pack's words as `bytes` takes them, a line.
words() {
    od -An -v -tx4 --endian=little "$1" | tr -d '\n' | tr a-f A-F | sed 's/^ //'
}

# ---- The fields, as AMD's guide has them

holds "the program of fetches is built" tools/build --for fetch fetch_fields
shows "examples/texture.fetch" $texture.fetch ./fetch TEX 2 $texture.pack
holds "fetch: the pack is named" [ "$(cat "$work/err")" = "pack $(sha256sum <$texture.pack | cut -d ' ' -f 1) $texture.pack" ]
shows "a kind in small letters" $texture.fetch ./fetch tex 2 $texture.pack
shows "a kind in some small letters" $texture.fetch ./fetch Tex 2 $texture.pack
shows "fetch: --" $texture.fetch ./fetch -- TEX 2 $texture.pack
run target/bin/fetch_fields TEX 2 $texture.pack
holds "fetch_fields: the same lines" cmp -s "$work/out" $texture.fetch
holds "fetch_fields: and nothing else" [ ! -s "$work/err" ]

# The opener of examples/texture.pack says where its fetch is: ADDR is the low word, and the kind, 1, stands in bits 29:23 of the high word.
# shellcheck disable=SC2046 # words
set -- $(words $texture.pack)
holds "examples/texture.pack: ADDR is 2, and the clause is TEX" [ "$((0x$1)) $((0x$2 >> 23 & 127))" = "2 1" ]

# Every form in one pack: a vertex fetch into a register at quadword 1, a semantic one at 3, a texture fetch at 5, each bit by bit another.
{
    bytes 0000000A 0000000B
    bytes 9A5C73A0 8B6D5A97 C5B49E21 00000000
    bytes 654E8CC1 7492A5C3 2A5B61DE 00000000
    bytes B3A5697F 5C92D7A6 93C6E54B 00000000
    bytes 0000000C 0000000D
} >"$desk/forms.pack"
printf '%s\n' VTX_INST=0 FETCH_TYPE=1 FETCH_WHOLE_QUAD=1 BUFFER_ID=115 SRC_GPR=92 SRC_REL=0 SRC_SEL_X=2 MEGA_FETCH_COUNT=38 \
    DST_GPR=23 DST_REL=1 RESERVED1_8=0 DST_SEL_X=5 DST_SEL_Y=5 DST_SEL_Z=2 DST_SEL_W=3 USE_CONST_FIELDS=1 DATA_FORMAT=45 NUM_FORMAT_ALL=0 \
    FORMAT_COMP_ALL=0 SRF_MODE_ALL=1 OFFSET=40481 ENDIAN_SWAP=0 CONST_BUF_NO_STRIDE=1 MEGA_FETCH=0 ALT_CONST=1 RESERVED2_21=1581 >"$desk/gpr"
printf '%s\n' VTX_INST=1 FETCH_TYPE=2 FETCH_WHOLE_QUAD=1 BUFFER_ID=140 SRC_GPR=78 SRC_REL=0 SRC_SEL_X=1 MEGA_FETCH_COUNT=25 \
    SEMANTIC_ID=195 RESERVED1_8=1 DST_SEL_X=2 DST_SEL_Y=2 DST_SEL_Z=5 DST_SEL_W=4 USE_CONST_FIELDS=0 DATA_FORMAT=18 NUM_FORMAT_ALL=3 \
    FORMAT_COMP_ALL=1 SRF_MODE_ALL=0 OFFSET=25054 ENDIAN_SWAP=3 CONST_BUF_NO_STRIDE=0 MEGA_FETCH=1 ALT_CONST=1 RESERVED2_21=338 >"$desk/sem"
printf '%s\n' TEX_INST=31 BC_FRAC_MODE=1 RESERVED0_6=1 FETCH_WHOLE_QUAD=0 RESOURCE_ID=105 SRC_GPR=37 SRC_REL=1 ALT_CONST=1 RESERVED0_25=89 \
    DST_GPR=38 DST_REL=1 RESERVED1_8=1 DST_SEL_X=3 DST_SEL_Y=5 DST_SEL_Z=5 DST_SEL_W=4 LOD_BIAS=100 COORD_TYPE_X=1 COORD_TYPE_Y=0 COORD_TYPE_Z=1 \
    COORD_TYPE_W=0 OFFSET_X=11 OFFSET_Y=10 OFFSET_Z=25 SAMPLER_ID=13 SRC_SEL_X=4 SRC_SEL_Y=7 SRC_SEL_Z=4 SRC_SEL_W=4 >"$desk/tex"
shows "a vertex fetch into a register" "$desk/gpr" ./fetch VTX 1 "$desk/forms.pack"
shows "a semantic one" "$desk/sem" ./fetch VTX 3 "$desk/forms.pack"
shows "a texture fetch" "$desk/tex" ./fetch TEX 5 "$desk/forms.pack"
shows "VTX_TC, into a register" "$desk/gpr" ./fetch VTX_TC 1 "$desk/forms.pack"
shows "VTX_TC, semantic, in small letters" "$desk/sem" ./fetch vtx_tc 3 "$desk/forms.pack"
shows "VTX in small letters" "$desk/sem" ./fetch vtx 3 "$desk/forms.pack"

# The forms' fields in their order, from the definitions, a line each: form, word, name, highest and lowest bit.
{
    sed -n 's/«//; s/»//; s/^position \([A-Z0-9_]*\) = bits \([0-9]*\) \([0-9]*\)$/at \1 \2 \3/p; s/^position \([A-Z0-9_]*\) = bit \([0-9]*\)$/at \1 \2 \2/p' \
        crates/formats/specs/Fields.antt
    for format in Tex Vtx; do
        echo "format $format"
        sed -n 's/«//; s/»//; s/^\([a-z0-9]*\)_fields =$/list \1/p; s/^[^(]*("\([A-Z0-9_]*\)", \([A-Z0-9_]*\))$/field \1 \2/p' crates/formats/specs/$format.antt
    done
} | awk '
    BEGIN {
        words["Tex.word0"] = "tex 0"; words["Tex.word1"] = "tex 1"; words["Tex.word2"] = "tex 2"
        words["Vtx.word0"] = "gpr 0 sem 0"; words["Vtx.gpr"] = "gpr 1"; words["Vtx.sem"] = "sem 1"; words["Vtx.word2"] = "gpr 2 sem 2"
    }
    $1 == "at" { bits[$2] = $3 " " $4 }
    $1 == "format" { format = $2 }
    $1 == "list" { list = words[format "." $2] }
    $1 == "field" { n = split(list, on, " "); for (i = 1; i < n; i += 2) print on[i], on[i + 1], $2, bits[$3] }' >"$desk/table"
for form in tex gpr sem; do
    awk -v form=$form '$1 == form { for (bit = $5; bit <= $4; bit++) print $2 * 32 + bit }' "$desk/table" | sort -n >"$desk/bits"
    holds "the definitions have every bit of a $form fetch's three words once" [ "$(paste -sd ' ' "$desk/bits")" = "$(seq -s ' ' 0 95)" ]
    awk -v form=$form '$1 == form { print $3 }' "$desk/table" >"$desk/names"
    holds "the names of a $form fetch are the definitions'" [ "$(sed 's/=.*//' "$desk/$form")" = "$(cat "$desk/names")" ]
done

# ---- Editing

# edits WHAT WORDS COMMAND...: the pack that is written has these words; it is named, and so is the one that was read, which is as it was.
edits() {
    what=$1 wanted=$2
    shift 2
    before=$(sha256sum <"$pack")
    run "$@"
    named="pack ${before%% *} $pack${newline}edited $(sha256sum <"$work/out" | cut -d ' ' -f 1)"
    if [ "$status $(words "$work/out")" = "0 $wanted" ] && [ "$(cat "$work/err")" = "$named" ] && [ "$(sha256sum <"$pack")" = "$before" ]; then
        pass
    else
        flunk "$what: '$(words "$work/out")', exit status $status, '$(cat "$work/err")'"
    fi
}

pack=$texture.pack
rest="00000002 80800000 C0008000 94200688"
edits "one texel to the left" "$rest 00000010 F00D1001 6880001E 00000000" ./fetch TEX 2 $pack OFFSET_X=30
cp "$work/out" "$desk/left.pack"
reports "the edited pack is released" "0 0 0 yes" ./judge $texture.card "$desk/left.pack"
sed 's/^OFFSET_X=.*/OFFSET_X=30/' $texture.fetch >"$desk/left"
shows "and its fetch is shown" "$desk/left" ./fetch TEX 2 "$desk/left.pack"
edits "fields of three words at once" "$rest 00000110 F62D1001 68818000 00000000" ./fetch tex 2 $pack RESOURCE_ID=1 LOD_BIAS=49 SAMPLER_ID=3
edits "of a name that is given twice the last one counts" "$rest 00000010 F00D1001 68800002 00000000" ./fetch TEX 2 $pack OFFSET_X=30 OFFSET_X=2
edits "a value that stands there already" "$(words $pack)" ./fetch TEX 2 $pack DST_GPR=1
edits "another number" "$rest 0000001F F00D1001 68800000 00000000" ./fetch TEX 2 $pack TEX_INST=31
edits "two settings in one argument" "$rest 00000010 F00D1001 688000A2 00000000" ./fetch TEX 2 $pack "OFFSET_X=2${newline}OFFSET_Y=5"
./fetch TEX 2 $pack DST_GPR=2 >"$desk/granted.pack" 2>/dev/null
reports "a register that is not granted" "9 0 0 no" ./judge $texture.card "$desk/granted.pack"
run ./explain $texture.card "$desk/granted.pack"
holds "and why" [ "$(paste -sd ' ' "$work/out")" = "verdict=9 place=0 slot=0 rule=fetch-register found=2 limit=2" ]
cp $pack "$desk/left.pack"
./fetch TEX 2 "$desk/left.pack" OFFSET_X=30 2>/dev/null | cat >"$desk/piped.pack"
holds "an edited pack through a pipe" [ "$(words "$desk/piped.pack")" = "$rest 00000010 F00D1001 6880001E 00000000" ]

# A fetch's own lines as settings change nothing, and those of another one copy it: all in one argument, and an argument each.
{
    bytes 0000000A 0000000B
    bytes 00000000 00000000 00000000 00000000
    bytes 00000001 00000000 00000000 00000000
    bytes 00000002 00000000 00000000 00000000
    bytes 0000000C 0000000D
} >"$desk/empty.pack"
for row in "VTX 1 gpr" "VTX_TC 3 sem" "TEX 5 tex"; do
    # shellcheck disable=SC2086 # words
    set -- $row
    kind=$1 quadword=$2
    pack=$desk/forms.pack
    edits "$row: its own lines in one argument" "$(words "$pack")" ./fetch "$kind" "$quadword" "$pack" "$(cat "$desk/$3")"
    # shellcheck disable=SC2046 # an argument each
    edits "$row: its own lines in an argument each" "$(words "$pack")" ./fetch "$kind" "$quadword" "$pack" $(cat "$desk/$3")
    lines=$(./fetch "$kind" "$quadword" "$pack" 2>/dev/null)
    pack=$desk/empty.pack
    {
        head -c $((8 * quadword)) "$pack"
        tail -c +$((8 * quadword + 1)) "$desk/forms.pack" | head -c 16
        tail -c +$((8 * quadword + 17)) "$pack"
    } >"$desk/copied"
    edits "$row: a copy in one argument" "$(words "$desk/copied")" ./fetch "$kind" "$quadword" "$pack" "$lines"
    # shellcheck disable=SC2086 # an argument each
    edits "$row: a copy in an argument each" "$(words "$desk/copied")" ./fetch "$kind" "$quadword" "$pack" $lines
done
pack=$desk/forms.pack
lines=$(cat "$desk/gpr")
refuses "a fetch into a register does not become a semantic one" "fetch: VTX_INST=0: not a number of this form" ./fetch VTX 3 "$pack" "$lines"

# ---- Every field of every form, by the definitions' table: the largest number is taken, is shown again, and changes the field's bits and no other,
# from words of zeros, and 0 from words of ones; one more is beyond the width. Numbers of instructions are tried below.

# The words of a fetch in the middle of two others' as awk computes them: changed WORD LOWEST HIGHEST VALUE of the pack's words at quadword 1.
changed() {
    awk -v at="$1" -v low="$2" -v high="$3" -v value="$4" -v was="$5" 'BEGIN {
        n = split(was, word, " ")
        old = word[3 + at]
        size = 2 ^ (high - low + 1)
        field = int(old / 2 ^ low) % size
        word[3 + at] = old + (value - field) * 2 ^ low
        for (i = 1; i <= n; i++) printf "%s%.0f", i == 1 ? "" : " ", word[i]
    }'
}

# The same words as decimal numbers.
decimal_words() {
    od -An -v -tu4 --endian=little "$1" | awk '{ for (i = 1; i <= NF; i++) { printf "%s%s", space, $i; space = " " } }'
}

tried=0
while read -r form at field high low; do
    case $form in
    tex) kind=TEX zeros="00000002 00000000 00000000" ones="FFFFFFFF FFFFFFFF FFFFFFFF" ;;
    gpr) kind=VTX zeros="00000000 00000000 00000000" ones="FFFFFFE0 FFFFFFFF FFFFFFFF" ;;
    sem) kind=VTX_TC zeros="00000001 00000000 00000000" ones="FFFFFFE1 FFFFFFFF FFFFFFFF" ;;
    esac
    case $field in TEX_INST | VTX_INST) continue ;; esac
    most=$(((1 << (high - low + 1)) - 1))
    tried=$((tried + 1))
    for words in "$most $zeros" "0 $ones"; do
        # shellcheck disable=SC2086 # words
        set -- $words
        value=$1
        bytes DEADBEEF 12345678 "$2" "$3" "$4" 00000000 87654321 FEEDFACE >"$desk/before"
        target/bin/fetch_fields "$kind" 1 "$desk/before" "$field=$value" >"$desk/behind"
        holds "$form $field=$value: its bits alone" [ \
            "$(decimal_words "$desk/behind")" = "$(changed "$at" "$low" "$high" "$value" "$(decimal_words "$desk/before")")" ]
        holds "$form $field=$value: a change" [ -n "$(cmp "$desk/before" "$desk/behind")" ]
        target/bin/fetch_fields "$kind" 1 "$desk/before" | sed "s/^$field=.*/$field=$value/" >"$desk/wanted"
        target/bin/fetch_fields "$kind" 1 "$desk/behind" >"$desk/read"
        holds "$form $field=$value: read again" cmp -s "$desk/wanted" "$desk/read"
        tells "$form $field=$((most + 1))" "fetch: $field=$((most + 1)): beyond the field's width" "$kind" 1 "$desk/before" "$field=$((most + 1))"
    done
done <"$desk/table"
holds "fields of three forms are tried, but for the numbers of instructions" [ "$tried" -eq $(($(wc -l <"$desk/table") - 3)) ]

# The numbers that are taken, by the definitions: textures take each other's; a vertex fetch keeps its own, which is its form.
taken() {
    sed -n "/^$1 =/,/^\$/p" crates/opcodes/specs/Numbers.antt | grep -o '([0-9]*, "[A-Z0-9_]*")' | sed 's/(\([0-9]*\),.*/\1/'
}
taken texture_fetches >"$desk/tex.taken"
taken vertex_fetches >"$desk/vtx.taken"
holds "the definitions take 27 texture fetches and 2 vertex fetches" [ "$(wc -l <"$desk/tex.taken") $(paste -sd ' ' "$desk/vtx.taken")" = "27 0 1" ]
number=0
while [ $number -lt 32 ]; do
    hexadecimal=$(printf '%08X' $number)
    bytes "$hexadecimal" 00000000 00000000 00000000 >"$desk/number.pack"
    if grep -qx $number "$desk/tex.taken"; then
        target/bin/fetch_fields TEX 2 $texture.pack TEX_INST=$number >"$desk/behind"
        holds "TEX_INST=$number" [ "$(words "$desk/behind")" = "$rest $hexadecimal F00D1001 68800000 00000000" ]
        target/bin/fetch_fields TEX 0 "$desk/number.pack" >"$desk/read"
        holds "TEX takes number $number" grep -qx TEX_INST=$number "$desk/read"
    else
        tells "TEX_INST=$number" "fetch: TEX_INST=$number: not a number of this form" TEX 2 $texture.pack TEX_INST=$number
        tells "TEX and number $number" "fetch: quadword 0: TEX does not take number $number" TEX 0 "$desk/number.pack"
    fi
    for kind in VTX VTX_TC; do
        if grep -qx $number "$desk/vtx.taken"; then
            target/bin/fetch_fields $kind 0 "$desk/number.pack" VTX_INST=$number >"$desk/behind"
            holds "$kind: VTX_INST=$number stays" cmp -s "$desk/behind" "$desk/number.pack"
            tells "$kind: VTX_INST=$((1 - number)) is another form" "fetch: VTX_INST=$((1 - number)): not a number of this form" \
                $kind 0 "$desk/number.pack" VTX_INST=$((1 - number))
        else
            tells "$kind: VTX_INST=$number" "fetch: VTX_INST=$number: not a number of this form" $kind 1 "$desk/forms.pack" VTX_INST=$number
            tells "$kind and number $number" "fetch: quadword 0: $kind does not take number $number" $kind 0 "$desk/number.pack"
        fi
    done
    number=$((number + 1))
done
tells "TEX_INST=32" "fetch: TEX_INST=32: beyond the field's width" TEX 2 $texture.pack TEX_INST=32
tells "VTX_INST=32" "fetch: VTX_INST=32: beyond the field's width" VTX 1 "$desk/forms.pack" VTX_INST=32

# ---- The vectors of part 8, by the program, as packs: tests/fetch_packs.awk says how.

awk -f tests/fetch_packs.awk tests/fetch-vectors.txt >"$desk/vectors"
holds "vectors for packs are 874 of 900" [ "$(wc -l <"$desk/vectors")" -eq 874 ]

# says_so: the message is one for this verdict. Of what can't be encoded it names a setting.
says_so() {
    setting=${said#fetch: }
    case "$verdict $said" in
    "0 ") ;;
    "2 fetch: quadword $quadword: not in the pack") ;;
    "8 fetch: quadword $quadword: $kind does not take number "[0-9]*) ;;
    "8 fetch: quadword $quadword: its fourth word is not 0") ;;
    "21 fetch: "*": beyond the field's width" | "21 fetch: "*_INST=*": not a number of this form")
        case " $fields " in *" ${setting%%: *} "*) ;; *) return 1 ;; esac ;;
    *) return 1 ;;
    esac
}

# Holds the program against vectors, and counts those that agree.
run_vectors() {
    agree=0
    while read -r id operation kind quadword verdict before behind fields; do
        [ "$before" != - ] || before=
        # shellcheck disable=SC2059 # the format is the bytes
        printf "$before" >"$desk/before"
        # shellcheck disable=SC2086 # an argument each
        if [ "$operation" = encode ]; then set -- $fields; else set --; fi
        target/bin/fetch_fields "$kind" "$quadword" "$desk/before" "$@" >"$desk/behind" 2>"$work/err"
        # shellcheck disable=SC2059,SC2086 # the format is the bytes; a line each
        case $operation.$verdict in
        decode.0) printf '%s\n' $fields ;;
        encode.0) printf "$behind" ;;
        esac >"$desk/wanted"
        said=
        IFS= read -r said <"$work/err"
        if says_so && cmp -s "$desk/behind" "$desk/wanted"; then agree=$((agree + 1)); else echo "$id: '$said', or another result"; fi
    done <"$1"
}
run_vectors "$desk/vectors" >"$desk/apart"
head -n 5 "$desk/apart"
holds "fetch_fields: every vector agrees" [ $agree -eq 874 ]
# That this can fail: another value, another byte of the result, another verdict, another message.
for edit in '/^f7 /s/ OFFSET_X=1 / OFFSET_X=2 /' '/^f2 /s/\\052 TEX/\\053 TEX/' '/^f15 /s/ 0 0 / 0 8 /' '/^f1 /s/ 21 / 2 /'; do
    sed "$edit" "$desk/vectors" | diff "$desk/vectors" - | sed -n 's/^> //p' >"$desk/changed"
    run_vectors "$desk/changed" >/dev/null
    holds "fetch_fields: changed vectors are found: $edit" [ "$(wc -l <"$desk/changed") $agree" = "1 0" ]
done

# ---- What is refused

pack=$texture.pack
for message in \
    "no kind of fetch: ALU|ALU 2 $pack" \
    "no kind of fetch: VTX_TX|VTX_TX 2 $pack" \
    "no kind of fetch: alu|alu 2 $pack" \
    "no number of a quadword: x|TEX x $pack" \
    "no number of a quadword: 02|TEX 02 $pack" \
    "no number of a quadword: +2|TEX +2 $pack" \
    "no number of a quadword: -2|TEX -2 $pack" \
    "no number of a quadword: 0x2|TEX 0x2 $pack" \
    "no number of a quadword: 2.0|TEX 2.0 $pack" \
    "no number of a quadword: 18446744073709551618|TEX 18446744073709551618 $pack" \
    "quadword 3: not in the pack|TEX 3 $pack" \
    "quadword 4: not in the pack|TEX 4 $pack" \
    "quadword 4294967295: not in the pack|TEX 4294967295 $pack" \
    "quadword 2: VTX does not take number 16|VTX 2 $pack" \
    "quadword 2: VTX_TC does not take number 16|vtx_tc 2 $pack" \
    "quadword 1: TEX does not take number 0|TEX 1 $pack" \
    "quadword 4: VTX does not take number 2|VTX 4 examples/unknown-fetch.pack" \
    "quadword 0: its fourth word is not 0|TEX 0 $pack" \
    "OFFSET_Q=1: no such field|TEX 2 $pack OFFSET_Q=1" \
    "offset_x=1: no such field|TEX 2 $pack offset_x=1" \
    "OFFSET=1: no such field|TEX 2 $pack OFFSET=1" \
    "OFFSET_X: no such field|TEX 2 $pack OFFSET_X" \
    "=1: no such field|TEX 2 $pack =1" \
    "OFFSET_X=2=3: no number of 32 bits|TEX 2 $pack OFFSET_X=2=3" \
    "OFFSET_X=: no number of 32 bits|TEX 2 $pack OFFSET_X=" \
    "OFFSET_X=-2: no number of 32 bits|TEX 2 $pack OFFSET_X=-2" \
    "OFFSET_X=+2: no number of 32 bits|TEX 2 $pack OFFSET_X=+2" \
    "OFFSET_X=02: no number of 32 bits|TEX 2 $pack OFFSET_X=02" \
    "OFFSET_X=0x2: no number of 32 bits|TEX 2 $pack OFFSET_X=0x2" \
    "OFFSET_X=two: no number of 32 bits|TEX 2 $pack OFFSET_X=two" \
    "OFFSET_X=4294967296: no number of 32 bits|TEX 2 $pack OFFSET_X=4294967296" \
    "OFFSET_X=4294967295: beyond the field's width|TEX 2 $pack OFFSET_X=4294967295" \
    "OFFSET_X=32: beyond the field's width|TEX 2 $pack OFFSET_X=32" \
    "OFFSET_X=32: beyond the field's width|TEX 2 $pack DST_GPR=1 OFFSET_X=32 OFFSET_X=1" \
    "TEX_INST=9: not a number of this form|TEX 2 $pack TEX_INST=9" \
    "VTX_INST=1: no such field|TEX 2 $pack VTX_INST=1" \
    "VTX_INST=1: not a number of this form|VTX 1 $desk/forms.pack VTX_INST=1" \
    "VTX_INST=0: not a number of this form|VTX_TC 3 $desk/forms.pack VTX_INST=0" \
    "SEMANTIC_ID=1: no such field|VTX 1 $desk/forms.pack SEMANTIC_ID=1" \
    "DST_GPR=1: no such field|VTX 3 $desk/forms.pack DST_GPR=1" \
    "quadword 2: VTX does not take number 16|VTX 2 $pack OFFSET=1" \
    "quadword 0: its fourth word is not 0|TEX 0 $pack OFFSET_X=1"; do
    # shellcheck disable=SC2086 # words
    refuses "fetch ${message#*|}" "fetch: ${message%%|*}" ./fetch ${message#*|}
done
refuses "no kind at all" "fetch: no kind of fetch: " ./fetch "" 2 $pack
refuses "no number at all" "fetch: no number of a quadword: " ./fetch TEX "" $pack
refuses "a blank before the number" "fetch: no number of a quadword:  2" ./fetch TEX " 2" $pack
refuses "a blank behind a setting" "fetch: OFFSET_X=2 : no number of 32 bits" ./fetch TEX 2 $pack "OFFSET_X=2 "
refuses "two settings with a blank" "fetch: OFFSET_X=2 OFFSET_Y=5: no number of 32 bits" ./fetch TEX 2 $pack "OFFSET_X=2 OFFSET_Y=5"
refuses "the second line of a setting" "fetch: OFFSET_Q=5: no such field" ./fetch TEX 2 $pack "OFFSET_X=2${newline}OFFSET_Q=5"
refuses "an empty setting" "fetch: an empty setting" ./fetch TEX 2 $pack ""
refuses "an empty setting behind another" "fetch: an empty setting" ./fetch TEX 2 $pack OFFSET_X=30 ""
refuses "a copy of what is no fetch" "fetch: an empty setting" ./fetch TEX 2 $pack "$(./fetch TEX 3 $pack 2>/dev/null)"
long=$(head -c 100000 /dev/zero | tr '\0' 1)
refuses "settings that are too long" "fetch: the settings are too long" ./fetch TEX 2 $pack "OFFSET_X=$long"
# shellcheck disable=SC2046 # an argument each
refuses "settings that are too many" "fetch: the settings are too long" ./fetch TEX 2 $pack $(yes OFFSET_X=1 | head -n 20000)

head -c 7 $pack >"$desk/seven"
{ cat "$desk/seven"; head -c 65529 /dev/zero; } >"$desk/longest"
{ cat "$desk/longest"; head -c 8 /dev/zero; } >"$desk/longer"
head -c 31 $pack >"$desk/cut"
head -c 24 $pack >"$desk/three"
refuses "an empty pack of fetches" "fetch: quadword 0: not in the pack" ./fetch VTX 0 "$odd/empty"
refuses "seven bytes" "fetch: not whole quadwords: $desk/seven" ./fetch VTX 0 "$desk/seven"
refuses "a pack cut by a byte" "fetch: not whole quadwords: $desk/cut" ./fetch TEX 2 "$desk/cut"
refuses "a pack with half of the fetch" "fetch: quadword 2: not in the pack" ./fetch TEX 2 "$desk/three"
refuses "a pack of 8193 quadwords" "fetch: more than 8192 quadwords: $desk/longer" ./fetch VTX 8 "$desk/longer"
refuses "three million zeros" "fetch: more than 8192 quadwords: $odd/zeros" ./fetch VTX 8 "$odd/zeros"
refuses "an edit of 8193 quadwords" "fetch: more than 8192 quadwords: $desk/longer" ./fetch VTX 8 "$desk/longer" OFFSET=1
refuses "no such pack of fetches" "fetch: no such file: $desk/nowhere" ./fetch TEX 2 "$desk/nowhere"
refuses "a folder for a pack of fetches" "fetch: not a file: $desk" ./fetch TEX 2 "$desk"
refuses "no such pack to edit" "fetch: no such file: $desk/nowhere" ./fetch TEX 2 "$desk/nowhere" OFFSET_X=1
refuses "a device for a pack of fetches" "fetch: not a file: /dev/zero" timeout 20 ./fetch TEX 2 /dev/zero

# The longest pack, up to its last fetch.
sed 's/=.*/=0/' "$desk/gpr" >"$desk/zeros"
shows "the last fetch of 8192 quadwords" "$desk/zeros" ./fetch VTX 8190 "$desk/longest"
refuses "half a fetch behind it" "fetch: quadword 8191: not in the pack" ./fetch VTX 8191 "$desk/longest"
{ head -c 65528 "$desk/longest"; bytes 0000FFFF 00000000; } >"$desk/wanted"
shows "an edit of the last fetch" "$desk/wanted" ./fetch VTX 8190 "$desk/longest" OFFSET=65535

usage="usage: fetch KIND QUADWORD PACK                  prints the fields of a fetch, a line NAME=number each"
refuses "fetch: no argument" "$usage" ./fetch
refuses "fetch: two arguments" "$usage" ./fetch TEX 2
refuses "fetch: an unknown option" "$usage" ./fetch --all $pack 2
refuses "fetch: -- and two arguments" "$usage" ./fetch -- TEX 2

# The program by itself, on what the script has not let through to it.
usage="usage: fetch_fields TEX|VTX|VTX_TC QUADWORD PACK [NAME=number..]"
tells "fetch_fields: no argument" "$usage"
tells "fetch_fields: two arguments" "$usage" TEX 2
tells "fetch_fields: small letters" "fetch: no kind of fetch: tex" tex 2 $pack
tells "fetch_fields: a folder" "fetch: $desk: Is a directory" TEX 2 "$desk"
tells "fetch_fields: no such file" "fetch: $desk/nowhere: No such file or directory" TEX 2 "$desk/nowhere"

# ---- Where the output goes

# unwritten HOW WHAT: what was called last has answered 2 and has told it.
unwritten() {
    holds "fetch: $1 is exit status 2" [ "$(cat "$work/lost")" -eq 2 ]
    holds "fetch: $1 is told" grep -qx "fetch: the $2 not written" "$work/err"
    cat "$work/err" >>"$desk/said"
}
for setting in "" OFFSET_X=30; do
    case $setting in "") thing="fields were" ;; *) thing="pack was" ;; esac
    # shellcheck disable=SC2086 # none or one
    set -- TEX 2 $pack $setting
    { ./fetch "$@" >/dev/full; echo $? >"$work/lost"; } 2>"$work/err"
    unwritten "a full output, $thing" "$thing"
    { ./fetch "$@" >&-; echo $? >"$work/lost"; } 2>"$work/err"
    unwritten "a closed output, $thing" "$thing"
    { ./fetch "$@" 2>"$work/err"; echo $? >"$work/lost"; } | :
    unwritten "a closed pipe, $thing" "$thing"
    target/bin/fetch_fields "$@" >/dev/full 2>"$work/err"
    holds "fetch_fields: a full output, $thing" [ "$(cat "$work/err")" = "fetch: the $thing not written" ]
done

# A closed standard error loses the names and nothing else.
./fetch TEX 2 $pack >"$work/out" 2>&-
holds "fields with standard error closed" [ "$? $(cat "$work/out")" = "0 $(cat $texture.fetch)" ]
./fetch TEX 2 $pack OFFSET_X=30 >"$work/out" 2>&-
holds "an edit with standard error closed" [ "$? $(words "$work/out")" = "0 $rest 00000010 F00D1001 6880001E 00000000" ]
./fetch TEX 2 $pack OFFSET_X=32 >"$work/out" 2>&-
holds "what is refused with standard error closed" [ "$? $(cat "$work/out")" = "2 " ]

# A terminal gets lines, and no pack. The master's side of one is a terminal, too.
{ ./fetch TEX 2 $pack OFFSET_X=30 >/dev/ptmx; echo $? >"$work/lost"; } 2>"$work/err"
holds "a pack to a terminal is exit status 2" [ "$(cat "$work/lost")" -eq 2 ]
holds "and it is told" [ "$(cat "$work/err")" = "fetch: a pack is nothing for a terminal: redirect it to a new file, behind >" ]
cat "$work/err" >>"$desk/said"
{ ./fetch TEX 2 $pack >/dev/ptmx; echo $? >"$work/lost"; } 2>/dev/null
holds "fields to a terminal" [ "$(cat "$work/lost")" -eq 0 ]

# The pack itself is nothing to redirect to: nothing is added to it. (What > empties is gone before anything runs.)
cp $pack "$desk/same.pack"
ln -s same.pack "$desk/link.pack"
for how in '>>' '1<>' '>'; do
    for setting in "" OFFSET_X=30; do
        eval "./fetch TEX 2 '$desk/link.pack' $setting $how'$desk/same.pack'" 2>"$work/err"
        holds "redirected to the pack itself, $how $setting: exit status" [ $? -eq 2 ]
        holds "redirected to the pack itself, $how $setting: told" [ \
            "$(cat "$work/err")" = "fetch: standard output goes to the pack itself: redirect it to a new file: $desk/link.pack" ]
        cat "$work/err" >>"$desk/said"
        case $how in '>') holds "it is empty" [ ! -s "$desk/same.pack" ] ;; *) holds "it stays, $how $setting" cmp -s $pack "$desk/same.pack" ;; esac
    done
done

# The file in between is made where TMPDIR says, and never left behind.
mkdir "$desk/tmp"
run env TMPDIR="$desk/tmp" ./fetch TEX 2 $pack OFFSET_X=30
holds "no file is left behind" [ "$status $(ls "$desk/tmp" | wc -l)" = "0 0" ]
run env TMPDIR="$desk/tmp" ./fetch TEX 2 $pack OFFSET_X=32
holds "nor is one of an edit that is refused" [ "$status $(ls "$desk/tmp" | wc -l)" = "2 0" ]
refuses "no room for a file in between" "fetch: no temporary file" env TMPDIR="$desk/nowhere" ./fetch TEX 2 $pack OFFSET_X=30
shows "fields need none" $texture.fetch env TMPDIR="$desk/nowhere" ./fetch TEX 2 $pack

# ---- Places

holds "fetch --help" sh -c './fetch --help | grep -q "^usage: fetch KIND QUADWORD PACK "'
holds "fetch --version" [ "$(./fetch --version)" = "fetch $(cat VERSION), in a checkout" ]
cp $pack "$work/else where/-my fetches"
ln -s "$root/fetch" "$work/else where/fetch"
cd "$work/else where" || exit 2
shows "a link to fetch, another folder, a blank and a dash in names" "$root/$texture.fetch" ./fetch TEX 2 "-my fetches"
pack="-my fetches"
edits "an edit there" "$rest 00000010 F00D1001 6880001E 00000000" ./fetch -- TEX 2 "$pack" OFFSET_X=30
cd "$root" || exit 2
pack=$texture.pack

# A checkout that can't be written, and one without the kit.
copy="$work/a third copy"
checkout "$copy" fetch
cp $pack "$desk/example"
chmod 755 "$desk"
chmod -R a-w,a+rX "$copy"
set -- TEX 2 "$desk/example"
./fetch "$@" OFFSET_X=30 >"$desk/edited" 2>/dev/null
shows "fetch in a read-only checkout" $texture.fetch as_nobody "$copy/fetch" "$@"
shows "an edit in a read-only checkout" "$desk/edited" as_nobody "$copy/fetch" "$@" OFFSET_X=30
shows "fetch in a checkout without the kit" $texture.fetch without_kit "$copy/fetch" "$@"
shows "an edit in a checkout without the kit" "$desk/edited" without_kit "$copy/fetch" "$@" OFFSET_X=30
chmod 0 "$desk/example"
refuses "a pack of fetches that can't be read" "fetch: cannot be read: $desk/example" as_nobody "$copy/fetch" "$@"
chmod 644 "$desk/example"
chmod -R u+w "$copy"
needs_kit="fetch: the Rattle kit is needed to prove and build this: no command rt. An installed judge needs none (./install)"
echo "// changed" >>"$copy/crates/fetches/src/lib.rt"
refuses "fetch: a changed source" "$needs_kit" without_kit "$copy/fetch" "$@"
cp crates/fetches/src/lib.rt "$copy/crates/fetches/src/lib.rt"
shows "fetch: the source as it was" $texture.fetch without_kit "$copy/fetch" "$@"
rm -f "$copy/target/bin/fetch_fields"
printf '#!/bin/sh\necho TEX_INST=16\n' >"$copy/target/bin/fetch_fields"
chmod 755 "$copy/target/bin/fetch_fields"
refuses "fetch: another program in its place" "$needs_kit" without_kit "$copy/fetch" "$@"
rm -rf "$copy"

# ---- Installed, by part 5

fetch="$prefix/bin/fetch"
shows "fetch installed, without the kit" $texture.fetch without_kit "$fetch" "$@"
shows "an edit with the installed one" "$desk/edited" without_kit "$fetch" "$@" OFFSET_X=30
refuses "what the installed one refuses" "fetch: OFFSET_X=32: beyond the field's width" without_kit "$fetch" "$@" OFFSET_X=32
rm "$work/else where/fetch"
ln -s "$fetch" "$work/else where/fetch"
shows "a link to the installed fetch" $texture.fetch without_kit "$work/else where/fetch" "$@"
run "$prefix/bin/fetch_fields" "$@"
holds "installed fetch_fields" cmp -s "$work/out" $texture.fetch
"$fetch" --version >"$work/version"
holds "installed fetch --version" [ "$(sed -n 1,2p "$work/version")" = "fetch $(cat VERSION)
proved with $(rt version)" ]
sum=$(sha256sum <"$prefix/bin/fetch_fields" | cut -d ' ' -f 1)
holds "installed --version: fetch_fields" grep -qx "fetch_fields has SHA-256 $sum" "$work/version"

# No more stack than docs/USING.md says, with the longest pack.
within_stack() {
    (ulimit -s 256 && "$prefix/bin/fetch_fields" VTX 8190 "$desk/longest" "$@")
}
shows "fetch_fields: 256 KiB of stack are enough" "$desk/zeros" within_stack
{ head -c 65528 "$desk/longest"; bytes 0000FFFF 00000000; } >"$desk/wanted"
shows "fetch_fields: 256 KiB of stack are enough for an edit" "$desk/wanted" within_stack OFFSET=65535

# What is shown has the form of fields, and what is written has a pack's size, whatever the program beside the script writes.
mkdir "$desk/forms"
cp -r "$prefix/bin" "$prefix/share" "$desk/forms"
program="$desk/forms/bin/fetch_fields"
# formed LINES: a program that writes them.
formed() {
    printf '#!/bin/sh\nprintf "%s"\n' "$1" >"$program"
}
formed 'OFFSET_X=4294967295\nRESERVED0_6=0\n'
printf 'OFFSET_X=4294967295\nRESERVED0_6=0\n' >"$desk/wanted"
shows "the form of fields" "$desk/wanted" "$desk/forms/bin/fetch" "$@"
for lines in \
    'OFFSET_X\n' \
    'OFFSET_X=\n' \
    '=1\n' \
    'OFFSET_X=1\n\nOFFSET_Y=1\n' \
    '\nOFFSET_X=1\n' \
    'OFFSET_X=01\n' \
    'OFFSET_X=-1\n' \
    'OFFSET_X=1 \n' \
    'OFFSET_X=1=1\n' \
    'OFFSET_X 1\n' \
    'OFFSET X=1\n' \
    'offset_x=1\n' \
    '1X=1\n' \
    '_X=1\n' \
    '1\n' \
    'OFFSET_X=1\nusage\n' \
    'fetch: told\nOFFSET_X=1\n' \
    'OFFSET_X=*\n'; do
    formed "$lines"
    refuses "not fields: $lines" "fetch: no fields" "$desk/forms/bin/fetch" "$@"
done
formed '12345678901234567890123456789012'
printf '12345678901234567890123456789012' >"$desk/wanted"
shows "the size of a pack" "$desk/wanted" "$desk/forms/bin/fetch" "$@" OFFSET_X=30
for size in 1 24 31 33 64; do
    formed "$(printf "%0${size}d" 0)"
    refuses "not a pack: $size bytes" "fetch: no pack" "$desk/forms/bin/fetch" "$@" OFFSET_X=30
done
for setting in "" OFFSET_X=30; do
    # shellcheck disable=SC2086 # none or one
    set -- TEX 2 "$desk/example" $setting
    printf '#!/bin/sh\necho "fetch: told" >&2\n' >"$program"
    refuses "a program that writes nothing, $setting" "fetch: told" "$desk/forms/bin/fetch" "$@"
    printf '#!/bin/sh\necho OFFSET_X=30\nexit 1\n' >"$program"
    refuses "a program that ends early, $setting" "fetch: the program ended early" "$desk/forms/bin/fetch" "$@"
    printf '#!/bin/sh\nprintf x >>"$3"\necho OFFSET_X=30\n' >"$program"
    refuses "a pack that changes meanwhile, $setting" "fetch: changed while it was read: $desk/example" "$desk/forms/bin/fetch" "$@"
    cp $pack "$desk/example"
    printf '#!/bin/sh\nprintf "%%s\\n" "$#" "$@" >"%s"\n' "$desk/given" >"$program"
    "$desk/forms/bin/fetch" vtx_Tc "$2" "$3" ${setting:+"$setting"} "A *${newline}b" >/dev/null 2>&1
    holds "the program is given the kind in capitals, and all else as it is, $setting" [ \
        "$(cat "$desk/given")" = "$(printf '%s\n' $(($# + 1)) VTX_TC "$2" "$3" ${setting:+"$setting"} "A *${newline}b")" ]
done
# Ended by somebody else, it leaves nothing behind and writes nothing.
printf '#!/bin/sh\n: >"%s"\nsleep 1\ncat "$3"\n' "$desk/begun" >"$program"
TMPDIR=$desk/tmp "$desk/forms/bin/fetch" "$@" >"$work/out" 2>"$work/err" &
while [ ! -e "$desk/begun" ]; do sleep 0.1; done
kill $!
wait $!
holds "an edit that is ended: exit status, and nothing written" [ "$? $(cat "$work/out")" = "2 " ]
holds "an edit that is ended: told" [ "$(cat "$work/err")" = "fetch: interrupted" ]
holds "an edit that is ended: nothing left behind" [ "$(ls "$desk/tmp" | wc -l)" -eq 0 ]
rm "$program"
refuses "fetch: no program beside it" "fetch: no program: $program" "$desk/forms/bin/fetch" "$@"
rm "$desk/forms/share/zlatomruk/front.sh"
refuses "fetch: without what it shares with judge" "fetch: no file: $desk/forms/bin/../share/zlatomruk/front.sh" "$desk/forms/bin/fetch" "$@"

# ---- docs/USING.md

# Its session on fetches, run again where it may leave files: each line with $ is a command, and what it prints stands below it.
mkdir "$desk/session"
ln -s "$root/fetch" "$root/judge" "$root/explain" "$root/examples" "$desk/session"
sed -n '/^## Editing fetches by hand/,/^## /s/^    //p' docs/USING.md >"$work/session"
left() {
    return "$last"
}
cd "$desk/session" || exit 2
last=0
while IFS= read -r line; do
    case $line in
    "\$ "*)
        printf '%s\n' "$line"
        left
        eval "${line#??}" 2>&1 </dev/null
        last=$? ;;
    esac
done <"$work/session" >"$work/real"
cd "$root" || exit 2
diff "$work/session" "$work/real"
holds "docs/USING.md: the session on fetches" cmp -s "$work/session" "$work/real"
holds "docs/USING.md: it has commands" [ "$(grep -c '^\$ ./fetch ' "$work/session")" -ge 3 ]

# Its table of messages has those that were seen above, and no other; but for those that all scripts have.
sed -n '/^## Editing fetches by hand/,/^## Many/s/^| \(`[^|]*`\) |.*/\1/p' docs/USING.md | grep -o '`[^`]*`' | tr -d '`' |
    sed "s/NAME=number/.*/; s/ N:/ .*:/; s/KIND/[A-Z_]*/; s/ n\$/ [0-9]*\$/; s/^/^fetch: /" >"$desk/messages"
while IFS= read -r message; do
    holds "docs/USING.md: the message '$message'" grep -q "$message" "$desk/said"
done <"$desk/messages"
grep '^fetch: ' "$desk/said" | grep -v -f "$desk/messages" | grep -v '^fetch: \(told$\|the Rattle kit \|no program: \|no file: \)' >"$desk/untold"
head -n 3 "$desk/untold"
holds "docs/USING.md: the messages that were seen" [ ! -s "$desk/untold" ]
