#!/bin/sh
# Runs each script of this folder that has a file of what it prints beside it, and compares the two.
cd "$(dirname "$0")" || exit 1
[ -f trips.csv ] || ./trips.sh > trips.csv
for wanted in *.out; do
    ../blink run < "${wanted%.out}.sql" | cmp - "$wanted" || exit 1
done
