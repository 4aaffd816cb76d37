# shellcheck shell=sh disable=SC2154
# What ./install puts below a folder: it works without the kit and without the checkout.
prefix="$work/in stalled"
holds "./install" ./install "$prefix"
judge="$prefix/bin/judge"
reports "installed, without the kit" "0 0 0 yes" without_kit "$judge" examples/copy.card examples/copy.pack
reports "installed, a refused pack" "19 1 0 no" without_kit "$judge" examples/jump-keeps-its-frame.card examples/jump-keeps-its-frame.pack
ln -s "$judge" "$work/else where/installed"
reports "a link to the installed judge" "0 0 0 yes" without_kit "$work/else where/installed" examples/copy.card examples/copy.pack
holds "installed --all" sh -c "'$judge' --all '$work/hundreds' >/dev/null 2>&1"
holds "installed judge_pack" sh -c "cat examples/copy.card examples/copy.pack | '$prefix/bin/judge_pack' | cmp -s - examples/copy.report"
holds "installed --version: version and kit" sh -c "'$judge' --version | grep -qx 'judge $(cat VERSION)' && '$judge' --version | grep -qx 'proved with $(rt version)'"
if command -v pkg-config >/dev/null; then
    PKG_CONFIG_PATH="$prefix/lib/pkgconfig" pkg-config --cflags --libs zlatomruk >"$work/flags"
    holds "pkg-config knows the version" [ "$(PKG_CONFIG_PATH="$prefix/lib/pkgconfig" pkg-config --modversion zlatomruk)" = "$(cat VERSION)" ]
    linked() {
        # The flags are quoted for a shell, since the prefix has a blank.
        eval "cc examples/c/judge_files.c $(cat "$work/flags") -o '$work/linked'"
    }
    holds "a program is linked by pkg-config's flags" linked
    holds "and judges" sh -c "'$work/linked' examples/copy.card examples/copy.pack >/dev/null"
fi
answers "./install without a folder" 2 ./install

# No more stack than docs/USING.md says: the longest pack, with the longest section.
{ head -c 4092 /dev/zero; printf '\000\000\040\000'; head -c 61440 /dev/zero; } >"$work/nops.pack"
sed 's/quads=.*/quads=8192/' examples/copy.card >"$work/nops.card"
within_stack() {
    (ulimit -s 256 && "$prefix/bin/judge_files" "$work/nops.card" "$work/nops.pack")
}
run within_stack
holds "judge_files: 256 KiB of stack are enough" grep -qx release=yes "$work/out"
