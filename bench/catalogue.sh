#!/usr/bin/env bash
# Times `fragdb check` on catalogues at their limits, each three times, and prints the least seconds. It fails where
# one is not accepted, or takes a second or more. One catalogue is at every limit at once, one has as many row splits
# of 4,096 cells as find room. The others have many row splits whose cells meet many conditions; each has twice the
# cells of the one before, and the ratio of the times shows how they grow.
#
# usage: bench/catalogue.sh [PROGRAM]      (default: crates/fragdb/out/fragdb, which `rt run` in crates/fragdb makes)
set -eu
top=$(cd "$(dirname "$0")/.." && pwd)
program=${1:-$top/crates/fragdb/out/fragdb}
folder=$(mktemp -d)
trap 'rm -rf "$folder"' EXIT

# A relation has the columns k, an integer, and c1 to c15, or longer names of these. All rows meet a condition
# `c1>=''`, and it gives its column two test values: the empty text, and a blank.
words='
# A name of 24 bytes.
function long(letter, number) { return letter sprintf("%023d", number) }
function name(number) { return are_long ? long("c", number) : "c" number }
function columns(kind,    i, text) {
    for (i = 1; i <= 15; i++) text = text ",\"" name(i) " " kind "\""
    return "columns=[\"k int\"" text "]"
}
# Conditions that all rows meet, on the columns from one number to another.
function all(from, to,    i, text) {
    for (i = from; i <= to; i++) text = text (i > from ? " AND " : "") name(i) ">='\'''\''"
    return text
}
# The same, and one that no row meets.
function none(from, to) { return all(from, to) " AND " name(1) "<'\'''\''" }
function branch(conds, below) { return "{where=\"" conds "\"," below "}" }
'

# 16 sites, and 32 relations of 16 columns and 32 leaves, all with names of 24 bytes but for the keys. The first
# relation has 4,096 cells, eight conditions in a branch, and four splits on the way to a leaf.
at_the_limits() {
    awk "$words"'
    function site(number) { return "site=\"" long("s", number) "\"" }
    # So many branches: k<1, k=1, .. and the last k>..
    function by_key(count,    i, text) {
        text = branch("k<1", site(0))
        for (i = 1; i < count - 1; i++) text = text "," branch("k=" i, site(i % 16))
        return text "," branch("k>" count - 2, site(15))
    }
    BEGIN {
        are_long = 1
        for (i = 0; i < 16; i++) sites = sites (i ? "," : "") "\"" long("s", i) "\""
        print "sites=[" sites "]\n[relations]"
        two = branch("k=0", site(0)) "," branch("k<>0", site(1))
        deep = "rows=[" branch("k=0", "rows=[" branch("k=0", "rows=[" two "]") "]") "," branch("k<>0", site(2)) "]"
        print long("r", 0) "={" columns("text") ",rows=[" branch(all(1, 8), deep) "," branch(none(9, 12), "rows=[" by_key(29) "]") "]}"
        for (r = 1; r < 32; r++) print long("r", r) "={" columns("int") ",rows=[" by_key(32) "]}"
    }'
}

# 32 relations of 34 row splits, of 4,096 cells each but the first. The conditions on the way to a split add to its
# cells: eight at the root and four below it; and of the 32 branches there that each have a split of their own all
# rows meet the first.
many_splits() {
    awk "$words"'
    function again(conds) { return branch(conds, "rows=[" branch(conds, "site=\"s\"") "]") }
    BEGIN {
        below = again(all(12, 12))
        for (i = 1; i < 32; i++) below = below "," again(name(12) "<'\'''\''")
        print "sites=[\"s\"]"
        for (r = 0; r < 32; r++)
            print "relations.r" r "={" columns("text") ",rows=[" branch(all(1, 8), "rows=[" branch(all(9, 12), "rows=[" below "]") "]") "]}"
    }'
}

# 16 relations of 65 row splits: below a root with five conditions 32 branches by the key, below each a split, and
# one more below that. These 1,024 have 3 * 2^$1 cells each, of which 2^$1 meet the conditions on the way.
splits_by_key() {
    awk -v last="$1" "$words"'
    function below(conds) { return branch(conds, "rows=[" branch(all(6, last), "rows=[" branch(all(6, 6), "site=\"s\"") "]") "]") }
    BEGIN {
        keys = below("k<1")
        for (i = 1; i < 31; i++) keys = keys "," below("k=" i)
        keys = keys "," below("k>30")
        print "sites=[\"s\"]"
        for (r = 0; r < 16; r++)
            print "relations.r" r "={" columns("text") ",rows=[" branch(all(1, 5), "rows=[" keys "]") "]}"
    }'
}

# The least seconds of three runs on the file $1.
seconds_of() {
    local least= start seconds
    for _ in 1 2 3; do
        start=$EPOCHREALTIME
        "$program" check "$1" > "$folder/output" || { echo "$1 is not accepted" >&2; exit 1; }
        seconds=$(awk -v a="$start" -v b="$EPOCHREALTIME" 'BEGIN { printf "%.3f", b - a }')
        least=$(awk -v a="${least:-$seconds}" -v b="$seconds" 'BEGIN { print (a < b ? a : b) }')
    done
    echo "$least"
}

slow=0
# Prints the seconds $3 of the file $2, which is called $1, and their ratio to the seconds $4, if there are any.
tell() {
    local ratio
    ratio=$(awk -v a="$3" -v b="${4:-0}" 'BEGIN { if (b > 0) printf "  ratio %.2f", a / b }')
    printf '%-34s  %6d bytes  %s s%s\n' "$1" "$(stat -c %s "$2")" "$3" "$ratio"
    awk -v a="$3" 'BEGIN { exit !(a < 1) }' || slow=1
}

at_the_limits > "$folder/limits.toml"
seconds=$(seconds_of "$folder/limits.toml")
tell "at every limit" "$folder/limits.toml" "$seconds"
many_splits > "$folder/splits.toml"
seconds=$(seconds_of "$folder/splits.toml")
tell "1,056 splits of 4,096 cells" "$folder/splits.toml" "$seconds"
before=
for columns in 7 8 9 10; do
    file=$folder/$columns.toml
    splits_by_key "$columns" > "$file"
    seconds=$(seconds_of "$file")
    tell "1,024 splits of $((3 << columns)) cells" "$file" "$seconds" "$before"
    before=$seconds
done
[ "$slow" = 0 ] || { echo "a catalogue takes a second or more"; exit 1; }
echo "each under a second"
