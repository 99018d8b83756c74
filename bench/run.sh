#!/usr/bin/env bash
# Prints the tables of README.md: what calls cost by the program `measure`, as bench/unproved builds it, and by peers.
#
# usage: bench/run.sh [TURNS [FOLDER [MEASURE]]]
#
# The programs run in turn, so that what else the machine does falls on all; a turn takes some 20 seconds, and there
# are 20 where no number is given. With a folder, what is built there stays, is not built again, and what each turn
# printed stays too. With a third word that program is taken for `measure`.
set -euo pipefail
turns=${1:-20} folder=${2:-} measure=${3:-}
[ -z "$folder" ] || { mkdir -p "$folder"; folder=$(realpath "$folder"); }
[ -z "$measure" ] || measure=$(realpath "$measure")
cd "$(dirname "${BASH_SOURCE[0]}")"
if [ -z "$folder" ]; then
  folder=$(mktemp -d)
  trap 'rm -rf "$folder"' EXIT
fi

build_arc() {
  local arc_swap=() source
  for source in /usr/share/cargo/registry/arc-swap-*/src/lib.rs; do
    [ -f "$source" ] || continue
    rustc --edition 2018 -O --cap-lints allow --crate-type rlib --crate-name arc_swap \
      -o "$folder/libarc_swap.rlib" "$source"
    arc_swap=(--cfg arc_swap --extern "arc_swap=$folder/libarc_swap.rlib")
  done
  rustc --edition 2024 -O --check-cfg 'cfg(arc_swap)' "${arc_swap[@]}" -o "$folder/arc" arc.rs
}

[ -z "$measure" ] || cp "$measure" "$folder/measure"
[ -f "$folder/measure" ] || ./unproved "$folder/measure"
[ -f "$folder/peers" ] || g++ -std=c++20 -O2 -Wall -Wextra -o "$folder/peers" peers.cpp -lpthread
[ -f "$folder/steps" ] || g++ -std=c++20 -O2 -Wall -Wextra -o "$folder/steps" steps.cpp -lpthread
[ -f "$folder/gaps" ] || g++ -std=c++20 -O2 -Wall -Wextra -o "$folder/gaps" gaps.cpp
[ -f "$folder/arc" ] || build_arc
for turn in $(seq "$turns"); do
  "$folder/measure" 3 > "$folder/measure.$turn"
  "$folder/peers" 5 > "$folder/peers.$turn"
  "$folder/arc" 5 > "$folder/arc.$turn"
done
model=$(grep -m1 'model name' /proc/cpuinfo | cut -d: -f2 | xargs)
load=$(uptime | sed 's/.*average//')
echo "$(uname -n), $model, $(nproc) processors, $(date -u +%F), load$load"
python3 table.py "$folder"/measure.* "$folder"/peers.* "$folder"/arc.*
"$folder/steps"
"$folder/gaps"
