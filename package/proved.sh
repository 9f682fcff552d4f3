# Which programs and library are packed: only those that `rt ci` and `rt lib` left for the sources
# of the last commit. package/build reads this file.
record=out/proved

# Nothing may be uncommitted: a package says of which commit it was made.
refuse_changes() {
    if [ -n "$(git status --porcelain)" ]; then
        git status --short >&2
        stop "the files above are not committed; commit them first, or remove them"
    fi
}

# What a proof is about: the sources, the kit, and the programs and the library that came of them.
identity() {
    git rev-parse HEAD:crates HEAD:crates.txt HEAD:HANDLES
    rt version
    sha256sum "${programs[@]}" "$library"
}

# Whether an earlier call proved just this. The first line of the record is the last one of `rt ci`.
is_proved() {
    [ -f "$record" ] && [ "$(sed 1d "$record")" = "$(identity 2>/dev/null)" ]
}

# Each program and the library must be there, and no source may be newer.
refuse_stale() {
    local made newer
    for made in "${programs[@]}" "$library"; do
        [ -f "$made" ] || stop "$made is not there, although rt ended well"
        newer=$(find crates crates.txt -name out -prune -o -type f -newer "$made" -print -quit)
        [ -z "$newer" ] || stop "$made is older than $newer; delete it, and start again"
    done
}

# Proves the crates and builds the library, and keeps a record of that. It takes long at first.
prove() {
    local last
    mkdir -p out
    rm -f "$record" "$library"
    say "rt ci proves the crates (its lines: out/ci.log)"
    rt ci >out/ci.log 2>&1 || stop "rt ci failed; see the end of out/ci.log"
    last=$(tail -n 1 out/ci.log)
    [[ $last =~ ^[1-9][0-9]*\ passed,\ 0\ failed$ ]] || stop "rt ci ended with: $last"
    say "rt lib builds the library (its lines: out/lib.log)"
    (cd crates/protox_ffi && rt lib) >out/lib.log 2>&1 || stop "rt lib failed; see out/lib.log"
    refuse_stale
    refuse_changes
    { echo "$last" && identity; } >"$record"
}

# Proves what isn't proved yet.
need_proofs() {
    refuse_changes
    if is_proved; then
        say "rt ci passed for these sources before: $(head -n 1 "$record")"
    else
        prove
    fi
}
