#!/bin/sh
# mistakes.sh [calls] [pattern] [broken]: plants each mistake of mistakes/ in a copy of the twin, one at a time, and tells whether the
# comparison with the original, of two parties and of one, of rings that suffice or of the defaults finds it, that of shots one in the
# gateway, or that of lines read back, of as many lines, one in their reader; with `broken`, whether that many damaged rooms beside the
# Rattle code do, or such lines. Needs a judge built by build.sh.
set -eu
cd "$(dirname "$0")"
calls=${1:-300000}
pattern=${2:-*}
linked=
if [ "${3:-}" = broken ]; then
    archive=${FROSTAXLE_ARCHIVE:-../target/staticlib/libabi.a}
    test -f "$archive" || { echo "no archive: $archive"; exit 2; }
    linked="--cfg archive -C link-arg=$(realpath "$archive")"
fi
work=target/mistake
found=0
missed=0
for edit in mistakes/$pattern.edit; do
    name=$(basename "$edit" .edit)
    rm -rf $work
    mkdir -p $work
    cp -r ../twin/src $work/src
    file=$work/src/$(sed -n 's/^file: //p' "$edit")
    case $linked,$file in
    *readback.rs) asked="read-back $calls 1 first" ;;
    ?*,*) asked="broken $calls 1" ;;
    *gateway.rs | *shots.rs) asked="shots $calls 1 first" ;;
    *) asked="$calls 1 first" ;;
    esac
    # Replaces the one place of the old text.
    awk -v edit="$edit" '
        BEGIN {
            while ((getline line < edit) > 0) {
                if (index(line, "old: ") == 1) old = substr(line, 6)
                if (index(line, "new: ") == 1) new = substr(line, 6)
            }
        }
        { at = index($0, old)
          if (at) { places++; $0 = substr($0, 1, at - 1) new substr($0, at + length(old)) }
          print }
        END { exit places != 1 }' "$file" > $work/edited || { echo "$name: its old text is not there once"; exit 2; }
    mv $work/edited "$file"
    rustc --edition 2024 -A warnings --crate-type rlib --crate-name twin $work/src/lib.rs --out-dir $work
    rustc --edition 2024 -A warnings $linked --cfg test -A explicit_builtin_cfgs_in_flags -L target \
        --extern std_shim=target/libstd_shim.rlib --extern dashmap=target/libdashmap.rlib \
        --extern ahash=target/libahash.rlib --extern rand=target/librand.rlib \
        --extern strum_macros=target/libstrum_macros.so --extern thiserror=target/libthiserror.so \
        --extern twin=$work/libtwin.rlib src/main.rs -o $work/judge
    if RUST_BACKTRACE=0 $work/judge $asked > $work/told 2>&1; then
        missed=$((missed + 1))
        echo "MISSED $name"
    else
        found=$((found + 1))
        echo "found  $name: $(grep -m 1 . $work/told | head -c 150)"
    fi
done
rm -rf $work
echo "$found found, $missed missed"
test $missed = 0
