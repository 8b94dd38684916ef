#!/usr/bin/env bash
# Stops the stores of a database in process, by the kit's fuse over files in memory: those of two sites and of the
# coordinator, each in SQLite, whose files outlive their connections (bench/fuses/*.rt.in). Two employees and two departments
# are loaded, one employee moves to a department whose fragment is at another site, and the other one is paid more. Each of the
# six files in turn answers an error from its call k on, be that a read, a write, a cut or a sync, for each k until a run ends
# without one.
#
# After each the files are opened again and settled, twice: as the process left them, and without what was not durable. What a
# client reads then, and what each site keeps of each leaf, has to be that of the statements that were answered, or of one
# more; and no prepared and no commit row is left. So the row that moves stands in one leaf.
#
# bench/stops.sh does so with the built program and its real files, at the calls that write. Here reads are stopped too.
#
# usage: bench/fuses.sh [kept | new [STRIDE [PROGRAM]]]
#
#   kept      the fuse is put in behind the load, before the files are opened for the move
#   new       it is put in before the files are made; a stop may leave any beginning of the script
#   STRIDE    stops at each STRIDE-th call alone, from the first one on
#   PROGRAM   one that was built of bench/fuses. Without it, it is compiled without proof and with checks, in a copy of the
#             repository, by `rt try`: that takes some minutes, and then each stop some twenty seconds, so give a STRIDE. With
#             optimization and no checks a stop takes a tenth of a second. `kept` makes 591 stops, `new` 277
#
# Ends with 1 where one stop left something wrong.
set -eu
top=$(cd "$(dirname "$0")/.." && pwd)
how=${1:-kept} stride=${2:-1} program=${3:-}
[ -z "$program" ] || exec "$program" "$how" "$stride"
room=$(mktemp -d)
trap 'rm -rf "$room"' EXIT
git clone -q "$top" "$room/it"
cd "$room/it"
mkdir -p crates/bench_fuses/src
for name in main database cable; do
    cp "$top/bench/fuses/$name.rt.in" "crates/bench_fuses/src/$name.rt"
done
echo "bench_fuses: terms meaning catalog reader store desk world sqlstore sqlite sqlite_disk" >> crates.txt
cd crates/bench_fuses
rt try --steps 1 --seconds 36000 -- "$how" "$stride"
