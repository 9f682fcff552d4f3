# Tries the packages for Debian in a new system. package/try reads this file.
system=

in_system() { chroot "$system" "$@"; }

make_system() {
    local suite
    suite=$(. /etc/os-release && echo "$VERSION_CODENAME")
    debootstrap --variant=minbase "$suite" "$system"
}

install_debs() {
    cp "$folder"/*.deb "$system/try/"
    in_system sh -c 'dpkg -i /try/*.deb'
}

# The first example as the README beside it gives it.
in_documents() { # PROGRAM WORD..
    in_system sh -c 'cd /usr/share/doc/protox-tools && exec "$@"' sh "$@"
}

# A second example: line 5, columns 8 to 20 hold the field at 4, 0, 2, 0.
try_protoscan() {
    diff <(echo '4.0.2.0 5,8,20') <(in_documents protoscan examples/foo.proto 4.0.2.0)
}

# A file and what it imports are linked. The set holds both, the one that is imported first.
try_protolink() {
    in_documents protolink -I examples/linked -o /try/set --include_imports shop/cart.proto
    grep -c -a 'shop/item.proto' "$system/try/set" >/dev/null
    grep -a '[.]shop[.]Item' "$system/try/set" >/dev/null
    ! in_documents protolink -I examples/linked -o /try/none shop/wrong.proto >"$work/said" 2>&1
    [ ! -e "$system/try/none" ] && grep -F ' | ' "$work/said" >/dev/null
}

# The page of each program and each call is there, and neither formatter finds fault with it.
try_man_pages() { # FOLDER WITH man1 AND man3
    local name page
    for name in protoparse.1 protoscan.1 protolink.1 protox.3 protox_report.3 protox_version.3; do
        page=$(ls "$1/man${name##*.}/$name"*)
        mandoc -T lint -W warning "$page"
        (cd "$1" && man --warnings -E UTF-8 -l -Tutf8 -Z "$page" >/dev/null) 2>"$work/warnings"
        [ ! -s "$work/warnings" ] || { cat "$work/warnings" && return 1; }
    done
    man -l "$1/man1/protoparse.1"* | grep 'defined here' >/dev/null
}

# A program that was linked with the installed library runs where only the package is.
try_linked() {
    local found
    found=$(PKG_CONFIG_SYSROOT_DIR=$system \
        PKG_CONFIG_LIBDIR=$system/usr/lib/x86_64-linux-gnu/pkgconfig \
        pkg-config --cflags --libs protox)
    gcc "$system/usr/share/doc/libprotox-dev/examples/check.c" $found -o "$system/try/check"
    objdump -p "$system/try/check" | grep 'NEEDED *libprotox.so.1' >/dev/null
    first_example_in_c in_documents /try/check
}

# The library's own tests, with its static library. They compare it with the installed program.
try_tests() {
    build_tests "$system/usr/include" "$system/usr/lib/x86_64-linux-gnu/libprotox.a" \
        "$system/try/tests"
    mkdir -p "$system/try/crates/protocases"
    cp -r examples "$system/try/"
    cp -r crates/protocases/data "$system/try/crates/protocases/"
    in_system sh -c 'cd /try && ./tests protoparse /try examples/*.proto \
        crates/protocases/data/*.proto' | grep -v '^ok'
}

remove_debs() {
    in_system dpkg --purge protox-tools libprotox-dev
    rm -rf "$system/try"
    names_below "$system" | diff "$work/names" -
}

# From the files to a refused file with its caret in a minute.
try_minute() {
    SECONDS=0
    install_debs
    first_example in_documents protoparse
    [ "$SECONDS" -lt 60 ]
}

try_system() {
    system=$work/system
    check "lintian finds no error" lintian --fail-on error "$folder"/*.deb
    check "debootstrap makes a new system" make_system
    [ -d "$system/usr/bin" ] || return 0
    names_below "$system" >"$work/names"
    mkdir "$system/try"
    check "dpkg -i: to a refused file with its caret in a minute" try_minute
    check "dpkg -i: protoscan" try_protoscan
    check "dpkg -i: protolink" try_protolink
    check "dpkg -i: man pages" try_man_pages "$system/usr/share/man"
    check "dpkg -i: a program with the shared library" try_linked
    check "dpkg -i: the library's tests" try_tests
    check "dpkg --purge leaves nothing" remove_debs
}
