#!/usr/bin/env bash
# Counts the instructions that a built program takes for each byte of a made file, by valgrind: the
# same at each run, whatever else the machine does.
# usage: bench/instructions.sh PROGRAM [MEGABYTES [whole|read|notes [ARGUMENT..]]]
set -eu
program=$1
size=${2:-10}
here=$(dirname "$0")
folder=$(mktemp -d)
trap 'rm -rf "$folder"' EXIT
python3 "$here/make_proto.py" "$size" "${3:-whole}" > "$folder/made.proto"
valgrind --tool=callgrind --callgrind-out-file="$folder/counts" "$program" "$folder/made.proto" "${@:4}" \
  > "$folder/out" 2> "$folder/log"
all=$(awk '/^summary:/ {print $2}' "$folder/counts")
bytes=$(wc -c < "$folder/made.proto")
awk -v all="$all" -v bytes="$bytes" 'BEGIN {printf "%.1f instructions a byte\n", all / bytes}'
callgrind_annotate "$folder/counts" | grep -E '^ *[0-9,]+ +\(' | sed -n '2,9p' | cut -c1-100
