#!/usr/bin/env bash
# Times the import of a file of 100,000 rows into a folder, 1,000 rows a transaction, and fails above ten seconds. What was
# imported is taken out again, and has to be the file.
#
# usage: bench/import.sh [PROGRAM]      (default: crates/fragdb/out/fragdb, which `rt run` in crates/fragdb makes)
set -eu
top=$(cd "$(dirname "$0")/.." && pwd)
program=$(realpath "${1:-$top/crates/fragdb/out/fragdb}")
folder=$(mktemp -d)
trap 'rm -rf "$folder"' EXIT
cd "$folder"
{
    echo 'id,zone,label'
    seq 0 99999 | awk '{ print $1 "," $1 % 40 ",label " $1 }'
} > rows.csv
begun=$(date +%s%N)
"$program" import --dir data --every 1000 item rows.csv
took=$((($(date +%s%N) - begun) / 1000000))
"$program" dump --csv --dir data item > out.csv
cmp rows.csv out.csv
echo "100,000 rows: $took milliseconds"
[ "$took" -le 10000 ]
