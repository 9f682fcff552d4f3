#!/usr/bin/env bash
# Builds and runs the examples and the tests over the C library, and says what passed.
#
# It needs gcc; python3 with protobuf (`apt-get install python3-protobuf`); cargo; the library, that
# `rt lib` makes in crates/protox_ffi; and the program protoparse, which `rt run` makes in
# crates/protoparse. What is missing is named, and counts as failed. What is made stands in
# examples/ffi/out: libprotox.so is the library for Python.
#
# usage: build.sh [LIBRARY [PROTOPARSE]]
#   LIBRARY     libprotox_ffi.a, if not crates/protox_ffi/out/libprotox_ffi.a
#   PROTOPARSE  the program, if not crates/protoparse/out/protoparse
set -uo pipefail
here=$(cd "$(dirname "$0")" && pwd)
top=$(cd "$here/../.." && pwd)
library=$(realpath -m "${1:-$top/crates/protox_ffi/out/libprotox_ffi.a}")
protoparse=$(realpath -m "${2:-$top/crates/protoparse/out/protoparse}")
python=${PYTHON:-/usr/bin/python3}
made=$here/out
mkdir -p "$made"
rm -f "$made"/{tests,check,link,header,libprotox.so}
passed=0 failed=0

count() { # STATUS NAME: counts a step
    if [ "$1" -eq 0 ]; then
        passed=$((passed + 1))
        echo "ok $2"
    else
        failed=$((failed + 1))
        echo "FAILED $2"
    fi
}
missing() { # WHAT HOW: something that is needed is not there
    failed=$((failed + 1))
    echo "MISSING $1: $2"
}
has() { command -v "$1" >/dev/null; }
end() {
    echo "$passed passed, $failed failed"
    [ "$failed" -eq 0 ]
    exit
}

# The library leaves rattle_alloc, rattle_realloc and rattle_dealloc to the kit's liblibc_c.a. It is
# linked where it stands.
kit=
if has rt; then kit=$(dirname "$(rt doc)")/c; fi
heap=$kit/liblibc_c.a
has gcc || missing gcc "apt-get install gcc"
has cargo || missing cargo "https://rustup.rs"
"$python" -c 'import google.protobuf' 2>/dev/null \
    || missing python3-protobuf "apt-get install python3-protobuf"
[ -f "$library" ] || missing "$library" "cd crates/protox_ffi && rt lib"
[ -f "$heap" ] || missing liblibc_c.a "it is in the folder c of the kit"
[ -x "$protoparse" ] || missing "$protoparse" "cd crates/protoparse && rt run"
if [ ! -f "$library" ] || [ ! -f "$heap" ] || ! has gcc; then end; fi

cp "$library" "$made/libprotox_ffi.a"
cd "$made" || exit 2
archives="$made/libprotox_ffi.a $heap"
flags="-std=c11 -O2 -Wall -Wextra -Werror -I$here"

# The calls, from outside.
gcc $flags "$here/tests.c" $archives -pthread -Wl,--wrap=malloc,--wrap=realloc,--wrap=free -o tests
count $? "tests.c builds"
if [ -x tests ] && [ -x "$protoparse" ]; then
    files='examples/*.proto crates/protocases/data/*.proto'
    (cd "$top" && "$made/tests" "$protoparse" "$made" $files) > tests.out
    grep -v '^ok' tests.out
    passed=$((passed + $(grep -c '^ok' tests.out)))
    failed=$((failed + $(grep -c '^FAILED' tests.out)))
    grep -q '^[0-9]* passed, [0-9]* failed$' tests.out
    count $? "tests.c comes to its end"
fi

# C.
gcc $flags "$here/check.c" $archives -o check
count $? "check.c builds"
(cd "$top/examples" && "$made/check" foo.proto refused.proto) > check.out
[ $? -eq 1 ] && diff - check.out <<'LINES'
refused.proto:4:19: message numbers must be between 1 and 536870911 (defined here)
LINES
count $? "check.c says what is wrong"

gcc $flags "$here/link.c" $archives -o link
count $? "link.c builds"
(cd "$top/examples/linked" && "$made/link" "$made/set" shop/cart.proto shop/item.proto) > link.out
count $? "link.c links"
(cd "$top/examples/linked" && "$made/link" "$made/set.not" shop/wrong.proto shop/item.proto) \
    > link.out
[ $? -eq 1 ] && diff - link.out <<'LINES'
shop/wrong.proto:8:12: "Itm" is not defined.
LINES
count $? "link.c says what is wrong"

# C++ takes the header.
if has g++; then
    echo '#include "protox.h"' > header.cc
    echo 'int main() { return protox_version() != PROTOX_VERSION; }' >> header.cc
    g++ -Wall -Wextra -Werror "-I$here" header.cc $archives -o header && ./header
    count $? "the header in C++"
fi

# Python.
gcc -shared -o libprotox.so -Wl,--whole-archive $archives -Wl,--no-whole-archive
count $? "libprotox.so is made"
PYTHONDONTWRITEBYTECODE=1 PYTHONPATH=$here "$python" "$here/messages.py" \
    "$top/examples/library.proto" "$top/examples/refused.proto" > python.out 2>&1
count $? "messages.py runs"
(cd "$top/examples/linked" && PYTHONDONTWRITEBYTECODE=1 PYTHONPATH=$here "$python" \
    "$here/link.py" shop/cart.proto shop/item.proto) > link.out
diff - link.out <<'LINES'
shop.Item.kind: .shop.Item.Kind
shop.Cart.items: .shop.Item
shop.Cart.kinds: .shop.Cart.KindsEntry
shop.Cart.KindsEntry.value: .shop.Item.Kind
LINES
count $? "link.py lists what names stand for"
PYTHONDONTWRITEBYTECODE=1 PYTHONPATH=$here "$python" "$here/test_protox.py" > python.tests
count $? "test_protox.py"
cat python.tests

# Rust.
if has cargo; then
    export CARGO_TARGET_DIR=$made/rust PROTOX_LIBRARIES=$made:$kit
    cargo build --quiet --release --offline --manifest-path "$here/rust/Cargo.toml"
    count $? "the Rust crate builds"
    "$made/rust/release/messages" "$top/examples/library.proto" > rust.out
    count $? "the Rust program runs"
    [ -s rust.out ] && diff <(grep -v '^refused' python.out) rust.out
    count $? "Python and Rust list the same messages"
    "$made/rust/release/messages" "$top/examples/refused.proto" 2> rust.err
    [ $? -eq 1 ] && grep -q 'refused.proto:4:19: message numbers must be between ' rust.err
    count $? "the Rust program says what is wrong"
    (cd "$top/examples/linked" && "$made/rust/release/link" shop/wrong.proto shop/item.proto) \
        > link.out
    [ $? -eq 1 ] && grep -qx 'shop/wrong.proto:8:12: "Itm" is not defined.' link.out
    count $? "the Rust program says what is wrong with names"
fi
end
