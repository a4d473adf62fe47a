#!/usr/bin/env bash
# Counts instructions with callgrind, one call each: they are the same in every run, however busy the machine is.
# First library and twin at 1,000 lines; then what share of a soundness check goes to testing pairs of lines of one leaf; then
# what a window takes beside its check of the map, and what walks of the tree would take instead.
set -euo pipefail
cd "$(dirname "$0")/.."
maps=bench/maps

# counted FUNCTION WAY CALL MAP: instructions in that function and all it calls, while that call runs.
counted() {
  valgrind --tool=callgrind --callgrind-out-file=/dev/null --toggle-collect="$1" build/bench/count "$2" "$3" "$maps/$4.txt" 2>&1 |
    sed -n 's/.*Collected : *//p'
}

name_of() {
  case $1 in insert | delete) echo "$1" ;; refused) echo insert ;; window*) echo window ;; *) echo locate ;; esac
}

printf '%-11s %-12s %12s %12s %8s\n' map call library twin 'of twin'
for map in fields100 fields1000 hub1000; do
  for call in soundness insert delete locate1 locate10000 below10000 none10000 refused window2000 window8000 windowall; do
    library=$(counted "boundary_map_$(name_of $call)" library $call $map)
    twin=$(counted "twin_$(name_of $call)" twin $call $map)
    printf '%-11s %-12s %12d %12d %8s\n' $map $call "$library" "$twin" "$(awk "BEGIN{printf \"%.3f\", $library/$twin}")"
  done
done
echo
printf '%-11s %-12s %12s %12s %8s\n' map share soundness conflicts percent
for map in fields1000 slivers furrows fences fans hub250 hub500 hub1000; do
  all=$(counted boundary_map_locate library soundness $map)
  pairs=$(counted geometry::conflict library soundness $map)
  printf '%-11s %-12s %12d %12d %8s\n' $map pairs "$all" "$pairs" "$(awk "BEGIN{printf \"%.1f\", 100*$pairs/$all}")"
done
echo
printf '%-11s %-12s %12s %12s %12s %12s %8s\n' map window call scan walk indexed percent
for map in fields1000 fences fans hub1000; do
  for window in window2000 window8000 windowall; do
    call=$(counted boundary_map_window library $window $map)
    scan=$((call - $(counted soundness::check library $window $map)))
    walk=$(counted window_walk walk $window $map)
    indexed=$(counted window_indexed indexed $window $map)
    printf '%-11s %-12s %12d %12d %12d %12d %8s\n' $map $window "$call" "$scan" "$walk" "$indexed" \
      "$(awk "BEGIN{printf \"%.1f\", 100*$scan/$call}")"
  done
done
