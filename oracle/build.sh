#!/bin/sh
# Builds the judge with rustc alone: the original source as it stands, small shims, the twin, and the archive of the Rattle code
# where there is one and this machine can link it, which is x86-64 alone. TRYPEMA_SRC names the folder of the original source,
# FROSTAXLE_ARCHIVE the archive; empty, none is linked.
set -eu
cd "$(dirname "$0")"
here=$(pwd)
source=${TRYPEMA_SRC:-$here/../../shared/docs/src}
source=$(cd "$source" && pwd)
archive=
if [ "$(uname -m)" = x86_64 ]; then archive=${FROSTAXLE_ARCHIVE-$here/../target/staticlib/libabi.a}; fi
linked=
if [ -n "${FROSTAXLE_ARCHIVE:-}" ]; then
    archive=$(realpath "$FROSTAXLE_ARCHIVE")
    test -f "$archive" || { echo "no archive: $archive"; exit 2; }
fi
if [ -f "$archive" ]; then
    linked="--cfg archive -C link-arg=$archive"
fi
../twin/build.sh
mkdir -p target
rm -rf target/original
cp -r --no-preserve=mode "$source/src" target/original
rust="rustc --edition 2024 -O -C overflow-checks=on -D warnings --out-dir target -L target"
$rust --crate-type proc-macro --crate-name strum_macros --extern proc_macro shims/strum_macros.rs
$rust --crate-type proc-macro --crate-name thiserror --extern proc_macro shims/thiserror.rs
$rust --crate-type rlib --crate-name std_shim shims/std.rs
for shim in ahash dashmap rand; do
    $rust --crate-type rlib --crate-name $shim shims/$shim.rs
done
# The original gives access to its private series under cfg(test).
$rust --crate-name judge $linked --cfg test -A explicit_builtin_cfgs_in_flags \
    --extern std_shim=target/libstd_shim.rlib --extern dashmap=target/libdashmap.rlib \
    --extern ahash=target/libahash.rlib --extern rand=target/librand.rlib \
    --extern strum_macros=target/libstrum_macros.so --extern thiserror=target/libthiserror.so \
    --extern twin=../twin/target/libtwin.rlib src/main.rs
