# Makes packs of tests/fetch-vectors.txt, for tests/parts/9-fetch.sh, a line each: ID decode|encode KIND QUADWORD VERDICT BYTES BYTES FIELD..
# Bytes are those of the pack, and of the pack as encoded, as printf takes them, - for none.
#
# A pack has whole quadwords, and a fetch begins with one. So an odd start gets a word before it, and an odd number of words one behind it, or
# one less where the fetch lies outside, which it still does then. What is encoded takes the place of a fetch of the same form. Verdict 2
# says of both that the fetch lies outside. Starts beyond ten digits are left out: there is no such quadword.

# The words of a list, from word[1] on, and how many they are.
function read_words(text, word,  n, i, part, times, count) {
    split("", word)
    n = text == "-" ? 0 : split(text, part, ",")
    for (i = 1; i <= n; i++) {
        times = index(part[i], "*") ? substr(part[i], 10) : 1
        while (times-- > 0) word[++count] = hexadecimal(substr(part[i], 1, 8))
    }
    return count + 0
}

function hexadecimal(text,  i, n) {
    for (i = 1; i <= length(text); i++) n = 16 * n + index("123456789ABCDEF", substr(text, i, 1))
    return n + 0
}

function bytes(word, first, last,  i, text) {
    for (i = first; i <= last; i++) {
        text = text sprintf("\\%03o\\%03o\\%03o\\%03o", word[i] % 256, int(word[i] / 256) % 256, int(word[i] / 65536) % 256, int(word[i] / 16777216))
    }
    return text == "" ? "-" : text
}

# The fields from one on, up to the line's end or =>.
function fields(i,  text) {
    for (; i <= NF && $i != "=>"; i++) text = text " " $i
    return text
}

/^#/ || !NF || length($4) > length("start=4294967296") { next }

{
    start = substr($4, length("start=") + 1) + 0
    last = read_words(substr($5, length("words=") + 1), word)
    outside = start + 4 > last
    first = start % 2 ? 0 : 1
    pad = (last - first + 1) % 2
    if (pad && outside) last--
    if (pad && !outside) word[++last] = 84281096
    word[0] = 16909060
    place = sprintf("%.0f", (start + 1 - first) / 2)
}

$2 == "fetch-decode" {
    verdict = substr($7, length("verdict=") + 1)
    print $1, "decode", toupper(substr($3, length("kind=") + 1)), place, verdict, bytes(word, first, last), "-" (verdict == 0 ? fields(11) : "")
}

$2 == "fetch-encode" {
    verdict = outside ? 2 : substr($(NF - 3), length("verdict=") + 1)
    read_words(substr($NF, length("words=") + 1), after)
    after[0] = word[0]
    if (pad) after[last] = word[last]
    if (!outside) {
        word[start + 1] = $3 == "form=tex" ? 16 : $3 == "form=vtx_sem" ? 1 : 0
        word[start + 2] = word[start + 3] = word[start + 4] = 0
    }
    kind = $3 == "form=tex" ? "TEX" : "VTX"
    print $1, "encode", kind, place, verdict, bytes(word, first, last), (verdict == 0 ? bytes(after, first, last) : "-") fields(6)
}
