#!/usr/bin/env bash
# protolink as the front end of protoc: code that protoc's generators, nanopb and prost-build make of the
# set that protolink writes, and of the set that protoc writes, compared file by file.
# usage: front_end.sh PROTOLINK [ROOT [FILE..]]
# Without files it takes those of google/protobuf below ROOT, which is /usr/include if not given, those of
# two sets that come with this repository, in which no option is set, and those of a tree with custom
# options, which bench/option_sets.py makes (with Debian's Python and python3-protobuf).
# It needs protoc (Debian: protobuf-compiler, libprotobuf-dev), and takes nanopb and prost-build (Debian:
# nanopb; cargo and librust-prost-build-dev) where they are installed.
# Files of code that differ are listed. The last line is 'N files of code are the same, M differ'.
set -euo pipefail
program=$(realpath "$1")
here=$(realpath "$(dirname "$0")/..")
root=$(realpath "${2:-/usr/include}")
work=$(mktemp -d)
trap 'rm -rf "$work"' EXIT
languages=(cpp python pyi java kotlin csharp ruby objc php)

# The code that protoc's generators make of a set, into a folder: make_code SET FOLDER FILE..
make_code() {
    local set=$1 folder=$2 language
    shift 2
    for language in "${languages[@]}"; do
        mkdir -p "$folder/$language"
        protoc "--${language}_out=$folder/$language" --descriptor_set_in="$set" "$@" 2>"$folder/$language.said" ||
            echo refused >>"$folder/$language.said"
    done
}

# The code that nanopb makes: make_nanopb PROGRAM FOLDER FILE.. It makes code of the last file of a set.
# It warns in the order of Python's sets, which a seed fixes.
make_nanopb() {
    local linker=$1 folder=$2 file
    shift 2
    command -v nanopb_generator.py >/dev/null || return 0
    mkdir -p "$folder/nanopb"
    for file in "$@"; do
        "$linker" -I. -o"$folder/set.pb" --include_imports "$file" 2>/dev/null
        (cd "$folder" && PYTHONHASHSEED=0 nanopb_generator.py -q -T -D nanopb set.pb) >>"$folder/nanopb.said" 2>&1 ||
            echo "$file: refused" >>"$folder/nanopb.said"
        rm "$folder/set.pb"
    done
}

# Builds a program that calls prost-build, where Debian's package has brought its sources.
build_prost() {
    ls /usr/share/cargo/registry/prost-build-* >/dev/null 2>&1 && command -v cargo >/dev/null || return 0
    cp -r "$here/bench/prost" "$work/.generate"
    (cd "$work/.generate" && cargo build --offline --quiet)
    prost=$work/.generate/target/debug/generate
}

# The code that prost-build makes with a program in protoc's place: make_prost PROGRAM FOLDER FILE..
make_prost() {
    local linker=$1 folder=$2
    shift 2
    [ -n "$prost" ] || return 0
    mkdir -p "$folder/prost"
    PROTOC=$linker "$prost" "$folder/prost" "$@" 2>"$folder/prost.said" || echo refused >>"$folder/prost.said"
}

# Compares what is made of the files of a folder: compare NAME FOLDER FILE..
compare() {
    local name=$1 folder=$2 part
    shift 2
    mkdir -p "$work/$name/ours" "$work/$name/theirs"
    cd "$folder"
    "$program" -I. -o"$work/$name/ours.pb" --include_imports --include_source_info "$@" 2>"$work/said" ||
        { cat "$work/said"; exit 1; }
    protoc -I. -o"$work/$name/theirs.pb" --include_imports --include_source_info "$@" 2>/dev/null
    for part in ours theirs; do make_code "$work/$name/$part.pb" "$work/$name/$part" "$@"; done
    make_nanopb "$program" "$work/$name/ours" "$@"
    make_nanopb protoc "$work/$name/theirs" "$@"
    make_prost "$program" "$work/$name/ours" "$@"
    make_prost "$(command -v protoc)" "$work/$name/theirs" "$@"
}

prost=
build_prost

if [ $# -gt 2 ]; then
    compare given "$root" "${@:3}"
else
    (cd "$root" && ls google/protobuf/*.proto) >"$work/names"
    mapfile -t files <"$work/names"
    compare protobuf "$root" "${files[@]}"
    compare shop "$here/crates/protolink/data" shop.proto item.proto parts/money.proto
    compare two_files "$here/examples/linked" shop/item.proto shop/cart.proto
    /usr/bin/python3 "$here/bench/option_sets.py" protoc "$program" --count 0 --into "$work/.tree"
    cp -r "$root/google" "$work/.tree/"
    # Some of these files are wrong on purpose, and two declare `google.protobuf.Any` anew.
    (cd "$work/.tree" && ls shapes/*.proto use/*.proto | grep -v -e /wrong_ -e _any.proto) >"$work/names"
    mapfile -t files <"$work/names"
    compare options "$work/.tree" "${files[@]}"
fi
cd "$work"
made=$(find ./*/theirs -type f ! -name '*.said' | wc -l)
for part in */; do diff -rq "$part/ours" "$part/theirs" || true; done >"$work/list"
differ=$(wc -l <"$work/list")
sed 's/^/    /' "$work/list"
echo "$((made - differ)) files of code are the same, $differ differ"
[ "$differ" -eq 0 ]
