#!/usr/bin/env bash
# Times a built program on made files of 1, 10 and 100 MB.
# usage: bench/run.sh PROGRAM [whole|read|notes [ARGUMENT..]]
set -eu
program=$1
kind=${2:-whole}
shift
shift || true
here=$(dirname "$0")
folder=$(mktemp -d)
trap 'rm -rf "$folder"' EXIT
for size in 1 10 100; do
  python3 "$here/make_proto.py" "$size" "$kind" > "$folder/$size.proto"
  echo -n "$size MB: "
  python3 "$here/time_runs.py" 21 "$program" "$folder/$size.proto" "$@"
done
