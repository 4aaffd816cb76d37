# shellcheck shell=sh disable=SC2154
# What the docs say and can be held against what is there.
for doc in README.md CHANGELOG.md bench/README.md examples/README.md docs/*.md docs/landings/*.md; do
    folder=$(dirname "$doc")
    for link in $(grep -o ']([^)#]*' "$doc" | sed 's/^](//' | grep -v '^http'); do
        holds "$doc: link to $link" [ -e "$folder/$link" ]
    done
done

# README's table has the crates in the order of crates.txt, and there each stands below what it builds on.
sed -n 's/^\([a-z_]*\)\( staticlib\)\{0,1\}:.*/\1/p' crates.txt >"$work/listed"
sed -n 's/^| `\([a-z_]*\)` | .*/\1/p' README.md >"$work/told"
holds "README has the crates of crates.txt in their order" cmp -s "$work/listed" "$work/told"
sed 's/#.*//; s/ staticlib:/:/; s/:/ /' crates.txt | awk '
    NF { seen[$1] = 1; for (i = 2; i <= NF; i++) if (!($i in seen)) print $i }' | sort -u >"$work/upward"
holds "crates.txt: a crate builds on those above it" [ ! -s "$work/upward" ]

# The judge's numbers, 0 to 19 and 22, and their places in USING.md, and the newest landing's version.
holds "docs/USING.md: the numbers 0 to 19, and 22" [ "$(sed -n 's/^| \([0-9]*\) | .* | .* | .*/\1/p' docs/USING.md | head -n 21 | paste -sd ' ' -)" = "$(seq -s ' ' 0 19) 22" ]
holds "CHANGELOG.md begins with this version" sh -c "grep -m 1 '^## ' CHANGELOG.md | grep -qF '$(cat VERSION)'"
holds "README has this version" grep -qF "version $(cat VERSION)" README.md

# Every edit that READING.md names is there.
for edit in $(sed -n '/^# What must fail/,$p' docs/READING.md | sed -n 's/^| .* | \(.*\) |$/\1/p' | grep -o '`[a-z0-9_]*`' | tr -d '`'); do
    holds "docs/READING.md: the edit $edit" sh -c "ls crates/*/must-fail/$edit.edit >/dev/null 2>&1"
done
