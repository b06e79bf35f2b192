#!/bin/sh
# Builds the benchmark with rustc alone into bench/target: the twin, the twin trusting its rooms, the original, and the archive
# that ARCHIVE names (without it: the archive is left out). TRYPEMA_SRC names the folder of the original source, TWIN that of a twin
# to be timed in place of this one.
set -eu
cd "$(dirname "$0")"
here=$(pwd)
source=${TRYPEMA_SRC:-$here/../../shared/docs/src}
source=$(cd "$source" && pwd)
twin=${TWIN:-../twin}/src/lib.rs
mkdir -p target ../oracle/target
rm -rf ../oracle/target/original
cp -r --no-preserve=mode "$source/src" ../oracle/target/original
rust="rustc --edition 2024 -O -D warnings --out-dir target -L target"
$rust --crate-type rlib --crate-name twin "$twin"
$rust --crate-type rlib --crate-name trusting --cfg trusting -A dead_code "$twin"
for macros in strum_macros thiserror; do
    $rust --crate-type proc-macro --crate-name $macros --extern proc_macro ../oracle/shims/$macros.rs
done
$rust --crate-type rlib --crate-name std_shim ../oracle/shims/std.rs
$rust --crate-type rlib --crate-name rand ../oracle/shims/rand.rs
$rust --crate-type rlib --crate-name ahash shims/ahash.rs
$rust --crate-type rlib --crate-name dashmap shims/dashmap.rs
$rust --crate-type rlib --crate-name original -A dead_code -A unused_imports \
    --extern std_shim --extern dashmap --extern ahash --extern rand --extern strum_macros --extern thiserror src/original.rs
link=
[ -z "${ARCHIVE:-}" ] || link="--cfg archive -C link-arg=$ARCHIVE"
$rust --crate-name bench $link --extern twin --extern trusting --extern original --extern rand src/main.rs
