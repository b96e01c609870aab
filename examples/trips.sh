#!/bin/sh
# Writes a CSV file of a hundred thousand trips to standard output.
exec awk 'BEGIN {
    print "bike,minutes,city"
    for (k = 1; k <= 100000; k++)
        printf "%d,%d,%s\n", k * 7919 % 800, k % 4 ? 15 : k * 31 % 180, k % 3 ? "Linz" : "Wels"
}'
