# The parts that packages are made of, in the folder $work/parts: the stripped programs, the static
# and the shared library, and files with the version filled in. package/build reads this file.
soname=libprotox.so.1

# A file with its marks filled in. The marks are the version, the kit, the last line of `rt ci`, the
# commit, the date, and what was given as NAME=VALUE.
fill() { # FILE NAME=VALUE..
    local file=$1 pair
    local words=(-e "s|@VERSION@|$version|g" -e "s|@KIT@|$kit|g" -e "s|@PROVED@|$proved|g"
        -e "s|@COMMIT@|$commit|g" -e "s|@DATE@|$(date -d "@$SOURCE_DATE_EPOCH" '+%B %-d, %Y')|g"
        -e "s|@MAILDATE@|$(date -R -d "@$SOURCE_DATE_EPOCH")|g")
    shift
    for pair in "$@"; do words+=(-e "s|@${pair%%=*}@|${pair#*=}|g"); done
    sed "${words[@]}" "$file"
}

# A text of the library says what was packed. Nothing is packed that isn't proved.
make_build_text() {
    printf 'const char protox_build[] = "%s";\n' \
        "protox $version, $kit, rt ci: $proved, commit $commit" >protox_build.c
    gcc -O2 -fPIC -c protox_build.c -o objects/protox_build.o
}

# The objects of the static library that `rt lib` built, and the one object of the kit that asks
# malloc for memory. Two of one name would overwrite one another.
make_objects() {
    local archive heap
    heap=$(dirname "$(rt doc)")/c/liblibc_c.a
    mkdir objects
    for archive in "$top/$library" "$heap"; do (cd objects && ar x "$archive"); done
    if [ "$(ls objects | wc -l)" -ne "$({ ar t "$top/$library" && ar t "$heap"; } | wc -l)" ]; then
        stop "two objects of the library have the same name"
    fi
    make_build_text
    strip --strip-debug --enable-deterministic-archives objects/*
}

# Both libraries hold the same objects. The shared one shows only what protox.h declares.
make_libraries() {
    make_objects
    ar -Drcs libprotox.a objects/*
    printf 'PROTOX_1 {\n    global: protox_*;\n    local: *;\n};\n' >protox.map
    gcc -shared -o "$soname" objects/* -Wl,-soname,"$soname" -Wl,--version-script,protox.map \
        -Wl,--no-undefined,-z,relro,-z,now,--build-id=sha1
    strip --strip-unneeded "$soname"
}

# The record of the build: what was packed, and what is known of its proof.
make_record() {
    fill "$top/package/BUILD.txt"
    (cd "$top" && sha256sum "${programs[@]}" "$library")
}

# The man pages and the texts.
make_texts() {
    local page
    mkdir man
    for page in protoparse.1 protoscan.1 protolink.1 protox.3; do
        fill "$top/package/man/$page" >"man/$page"
    done
    cp "$top"/{README.md,CHANGELOG.md,docs/PROVED.md} .
    fill "$top/package/debian/copyright" >copyright
    make_record >BUILD.txt
}

make_parts() {
    local program said
    mkdir -p "$work/parts"
    cd "$work/parts"
    for program in "${programs[@]}"; do
        strip -o "$(basename "$program")" "$top/$program"
    done
    make_libraries
    make_texts
    said=$(./protoparse --version | head -n 1)
    [[ $said == "protoparse $version"* ]] || stop "protoparse --version is $said, not $version"
    cd "$top"
}
