#!/usr/bin/env bash
# The same by xargs: all files below a folder, as many at a time as there are processors.
# usage: many.sh PROTOPARSE ROOT SET
set -euo pipefail
export program=$(realpath "$1") root=$2
export folder=$(mktemp -d)
trap 'rm -rf "$folder"' EXIT
find "$root" -name '*.proto' -printf '%P\n' | sort > "$folder/names"
one() {
    mkdir -p "$folder/sets/$(dirname "$1")"
    (cd "$root" && "$program" --descriptor-set-out="$folder/sets/$1.pb" "$1")
}
export -f one
xargs -P "$(nproc)" -d '\n' -n 1 bash -c 'one "$0"' < "$folder/names"
(cd "$folder/sets" && sed 's/$/.pb/' ../names | xargs -d '\n' cat) > "$3"
