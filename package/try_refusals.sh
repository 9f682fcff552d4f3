# Tries what package/build must refuse, in a clone, with a program in the place of rt that proves
# nothing and ends as it is told. package/try reads this file.

make_stub() {
    mkdir "$work/stub"
    cat >"$work/stub/rt" <<'LINES'
#!/usr/bin/env bash
# ENDS: how `rt ci` ends. LEAVES: what is left, new or old or nothing.
leave() {
    mkdir -p "$(dirname "$1")"
    case $LEAVES in
        new) touch "$1" ;;
        old) touch -d 2001-01-01 "$1" ;;
    esac
}
case $1 in
    version) echo stub ;;
    ci)
        for name in protoparse protoscan protolink; do leave "crates/$name/out/$name"; done
        echo "$ENDS"
        [ "$ENDS" != broken ]
        ;;
    lib) leave out/libprotox_ffi.a ;;
esac
LINES
    chmod +x "$work/stub/rt"
    git clone --quiet --shared "$top" "$work/clone"
}

# package/build must end with status 2, say this, and pack nothing.
refused() { # WORDS ENDS LEAVES
    local status=0
    rm -rf "$work/clone"/crates/*/out "$work/refused"
    PATH=$work/stub:$PATH ENDS=$2 LEAVES=$3 "$work/clone/package/build" "$work/refused" \
        >"$work/found" 2>&1 || status=$?
    cat "$work/found"
    [ "$status" -eq 2 ]
    grep -q -- "$1" "$work/found"
    [ ! -e "$work/refused" ]
}

try_uncommitted() {
    touch "$work/clone/new"
    refused 'not committed' '5 passed, 0 failed' new
}

try_refusals() {
    check "a clone, and a stub in the place of rt" make_stub
    check "refused: rt ci failed" refused 'rt ci failed' broken new
    check "refused: a check of rt ci failed" refused '4 passed, 1 failed' '4 passed, 1 failed' new
    check "refused: rt ci checked nothing" refused '0 passed' '0 passed, 0 failed' new
    check "refused: a program is missing" refused 'is not there' '5 passed, 0 failed' nothing
    check "refused: a program is older than a source" refused 'older than' '5 passed, 0 failed' old
    check "refused: a file is not committed" try_uncommitted
}
