#!/usr/bin/env bash
# Tries the edits under bench/edits, which the gate leaves out for the time that they take: as with those under must-fail of
# a crate, the prover has to refuse each. It works on a copy of the last commit, and takes what an earlier `rt ci` proved.
# Usage, at the top of the repository: bench/edits.sh [CRATE..]. Without a name it tries those of all crates.
set -eu
folder=$(mktemp -d)
trap 'rm -rf "$folder"' EXIT

if [ $# = 0 ]; then
    set -- $(ls bench/edits)
fi
git clone -q . "$folder/copy"
rm -rf "$folder"/copy/crates/*/must-fail
for crate; do
    mkdir "$folder/copy/crates/$crate/must-fail"
    cp "bench/edits/$crate"/*.edit "$folder/copy/crates/$crate/must-fail"
done
cd "$folder/copy"
rt ci "$@"
