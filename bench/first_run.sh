#!/usr/bin/env bash
# Takes the times of a first use: from a fresh clone to its first transcript, of ./prove, and of what comes behind it.
set -eu
top=$(cd "$(dirname "$0")/.." && pwd)

help() {
    cat <<END
usage: first_run.sh [--times] [FOLDER]
Clones the repository as it is committed, in a folder of its own that is gone afterwards, or in FOLDER, which stays. It tells how long
these take by the clock, with the load of the machine before each:
- the first transcript, by ./replay, which is unproved, and the first of ./explain
- ./prove to its end: crate by crate, the longest chain of crates, and apart what is neither the prover's nor the compiler's
- ./replay behind it: with nothing changed, after a file of the lowest crate was touched, and, unproved, after a comment was changed there
- ./prove after that
Nothing that was proved before is used. Two processors of more are measured by taskset -c 0,1 bench/first_run.sh.
With --times the seconds that each proof took of the processor are written into tools/proof_times.txt of the repository, by which ./prove
estimates how long it takes.
END
}

is_kept=
case "$#:${1:-}" in
    1:-h | 1:--help) help; exit 0 ;;
    [12]:--times) is_kept=yes; shift ;;
esac
if [ $# -gt 1 ] || [[ ${1:-} == -* ]]; then
    help >&2
    exit 2
fi
if [ $# -gt 0 ]; then
    mkdir -p "$1"
    folder=$(cd "$1" && pwd)
else
    folder=$(mktemp -d)
    trap 'rm -rf "$folder"' EXIT
fi
git clone -q "$top" "$folder/clone"
cd "$folder/clone"
scenario=examples/whole-life.scn
lowest=crates/bcast_base/src/lib.rt

# Runs a command on the scenario, and tells how long it took.
timed() {
    local what=$1 begun load
    shift
    load=$(cut -d ' ' -f 1-3 /proc/loadavg)
    begun=$(date +%s.%N)
    "$@" <"$scenario" >"$folder/out"
    echo "$what: $(awk -v a="$begun" -v b="$(date +%s.%N)" 'BEGIN { printf "%.1f", b - a }') s (load before it $load)"
}

# Ends where the last transcript is another one than that of the scenario.
right() {
    cmp "$folder/out" "${scenario%.scn}.out" || { echo "the transcript differs" >&2; exit 1; }
}

echo "on $(nproc) processors:"
timed "the first transcript, unproved" ./replay
right
timed "the first run of explain, unproved" ./explain
timed "./prove" python3 bench/gate_times.py ${is_kept:+--times tools/proof_times.txt} ./prove
cat "$folder/out"
du -sh . | sed 's/\t.*/ on disk/'
timed "replay with nothing changed" ./replay
right
timed "explain with nothing changed" ./explain
touch "$lowest"
timed "replay after a file of bcast_base was touched" ./replay
sed -i '1s|^|//! \n|' "$lowest"
timed "replay after a comment was changed there, unproved" ./replay
right
timed "./prove after that" ./prove
timed "replay behind it" ./replay
right
[ -z "$is_kept" ] || cp tools/proof_times.txt "$top/tools/proof_times.txt"
