# shellcheck shell=sh disable=SC2154
# The table of ALU numbers: what its comments say, and what docs/OPCODES.md shows.
table=crates/opcodes/src/table.rt
sed -n 's|^    \([A-Z_0-9]*\), // \([0-9]*\)|\2 \1|p' $table >"$work/rows"
cut -d ' ' -f 1 "$work/rows" >"$work/numbers"
holds "$table: a row for each number, in order" [ "$(paste -sd ' ' "$work/numbers")" = "$(seq -s ' ' 0 255) $(seq -s ' ' 0 31)" ]

# Number and mnemonic of each number that is taken, of OP2 and then of OP3, in the definition and in the rows.
listed() {
    sed -n "/^unfoldable pub $1 :/,/^\$/p" crates/opcodes/specs/Alu.antt | grep -o '([0-9]*, "[A-Z0-9_]*")' | tr -d '(,")' | sort -n
}
{ listed op2 && listed op3; } >"$work/listed_numbers"
awk '$2 != "NOT_TAKEN" { sub(/,.*/, "", $3); print $1, $3 }' "$work/rows" >"$work/row_numbers"
holds "$table: the mnemonics are the definition's" cmp -s "$work/listed_numbers" "$work/row_numbers"
holds "$table: 111 numbers are taken" [ "$(wc -l <"$work/row_numbers")" -eq 111 ]

# The commands of docs/OPCODES.md, each change on a copy of its own, say what stands below them there.
sed -n 's/^    //p' docs/OPCODES.md >"$work/session"
sed -n 's/^\$ \(sed .*\)/\1/p' "$work/session" >"$work/changes"
sed -n 's/^\$ \((cd .*rt .*\)/\1/p' "$work/session" >"$work/commands"
while read -r change <&3 && read -r command <&4; do
    rm -rf "$work/opcodes"
    mkdir "$work/opcodes"
    sources_of crates/laws crates/opcodes | xargs -0 cp --parents -t "$work/opcodes"
    printf 'laws:\nopcodes: laws\n' >"$work/opcodes/crates.txt"
    printf '$ %s\n$ %s\n' "$change" "$command"
    (cd "$work/opcodes" && eval "$change" && eval "$command")
done 3<"$work/changes" 4<"$work/commands" >"$work/seen"
holds "docs/OPCODES.md: what it shows" cmp -s "$work/session" "$work/seen"
holds "docs/OPCODES.md: it shows three changes" [ "$(wc -l <"$work/changes")" -eq 3 ]
