#!/bin/sh
# Builds the twin's library, its desk, its shots and its replay with rustc alone, into twin/target.
set -eu
cd "$(dirname "$0")"
mkdir -p target
rust="rustc --edition 2024 -O -D warnings"
$rust --crate-type rlib --crate-name twin src/lib.rs --out-dir target
for program in desk shots replay; do
    $rust --extern twin=target/libtwin.rlib src/${program}_main.rs -o target/$program
done
