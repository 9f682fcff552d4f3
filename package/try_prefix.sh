# Tries the tar.gz under a prefix of its own. package/try reads this file.

# The tests of the library, linked with a static library. They count and refuse requests for memory.
# They are built in another folder, so that they take the installed header.
build_tests() { # INCLUDE LIBRARY PROGRAM
    mkdir -p "$work/outside"
    cp examples/ffi/{tests.c,trying.h,linking.h} "$work/outside/"
    gcc -std=c11 -O2 -Wall -Wextra -Werror "-I$1" "$work/outside/tests.c" "$2" -pthread \
        -Wl,--wrap=malloc,--wrap=realloc,--wrap=free -o "$3"
}

unpack() { # PREFIX
    mkdir -p "$1"
    tar -xzf "$folder/protox-$version-linux-x86_64.tar.gz" -C "$1" --strip-components=1
}

flags_of() { # PREFIX WORD..
    PKG_CONFIG_PATH=$1/lib/pkgconfig pkg-config "${@:2}" protox
}

# The shared library, by pkg-config. The prefix may move.
try_shared() { # COMPILER PREFIX
    "$1" -Wall -Wextra -Werror "$2/share/doc/protox/examples/check.c" \
        $(flags_of "$2" --cflags --libs) -o "$work/check"
    cd "$2/share/doc/protox"
    first_example_in_c env LD_LIBRARY_PATH="$2/lib" "$work/check"
}

try_static() { # COMPILER PREFIX
    "$1" -Wall -Wextra -Werror "$2/share/doc/protox/examples/check.c" $(flags_of "$2" --cflags) \
        "$2/lib/libprotox.a" -o "$work/check"
    cd "$2/share/doc/protox"
    first_example_in_c "$work/check"
}

try_header() { # PREFIX
    echo '#include <protox.h>' >"$work/header.cc"
    echo 'int main() { return protox_version() != PROTOX_VERSION; }' >>"$work/header.cc"
    g++ -Wall -Wextra -Werror "$work/header.cc" $(flags_of "$1" --cflags) "$1/lib/libprotox.a" \
        -o "$work/header"
    "$work/header"
}

calls_of_header() { sed -n 's/^uint32_t \(protox_[a-z_]*\)(.*/\1/p' "$1/include/protox.h"; }

# Only the calls of the header are shown.
try_symbols() { # PREFIX
    nm -D --defined-only --without-symbol-versions "$1/lib/libprotox.so.1" |
        awk '$2 == "T" { print $3 }' | diff <(calls_of_header "$1" | sort) -
}

# A program that prints what the library says of its build.
try_build_text() { # PREFIX EXPECTED
    printf '#include <protox.h>\n#include <stdio.h>\nint main(void) { %s }\n' \
        'return puts(protox_build) < 0;' >"$work/build.c"
    gcc -Wall -Wextra -Werror "$work/build.c" $(flags_of "$1" --cflags --libs) -o "$work/build"
    [ "$(LD_LIBRARY_PATH="$1/lib" "$work/build")" = "$2" ]
}

# pkg-config, BUILD.txt and the library tell the version, the kit and the proof, as the program and
# the kit do.
try_told() { # PREFIX
    local words proved
    words=$(rt version)
    proved=$(flags_of "$1" --variable=proved)
    try_build_text "$1" \
        "protox $version, $words, rt ci: $proved, commit $(git rev-parse HEAD)"
    [ "$(flags_of "$1" --modversion)" = "$version" ]
    [ "$(flags_of "$1" --variable=kit)" = "$words" ]
    grep -qx "kit: *$words" "$1/share/doc/protox/BUILD.txt"
    grep -qx "rt ci: *$proved" "$1/share/doc/protox/BUILD.txt"
    grep -qx "commit: *$(git rev-parse HEAD)" "$1/share/doc/protox/BUILD.txt"
    [[ $proved =~ ^[1-9][0-9]*\ passed,\ 0\ failed$ ]]
    [[ $("$1/bin/protoparse" --version) == "protoparse $version (${words%% *})"* ]]
}

try_prefix_tests() { # PREFIX
    build_tests "$1/include" "$1/lib/libprotox.a" "$work/tests"
    mkdir "$work/made"
    "$work/tests" "$1/bin/protoparse" "$work/made" examples/*.proto \
        crates/protocases/data/*.proto | grep -v '^ok'
}

# Programs only read what is installed: all that is there came from the tar.gz.
try_unchanged() { # PREFIX
    diff <(names_below "$1") <(names_below "$work/unpacked")
}

in_prefix() { # PREFIX COMMAND..
    cd "$1/share/doc/protox"
    "${@:2}"
}

try_prefix() {
    local first=$work/one/protox second=$work/two/protox
    unpack "$work/unpacked"
    unpack "$first"
    check "tar.gz: README's first example" in_prefix "$first" first_example "$first/bin/protoparse"
    check "tar.gz: version, kit and proof" try_told "$first"
    check "tar.gz: what the shared library shows" try_symbols "$first"
    check "tar.gz: man pages" try_man_pages "$first/share/man"
    check "tar.gz: gcc, shared" try_shared gcc "$first"
    check "tar.gz: gcc, static" try_static gcc "$first"
    mkdir "$work/two"
    mv "$first" "$second"
    check "tar.gz, moved: clang, shared" try_shared clang "$second"
    check "tar.gz, moved: clang, static" try_static clang "$second"
    check "tar.gz, moved: C++" try_header "$second"
    check "tar.gz, moved: the library's tests" try_prefix_tests "$second"
    check "tar.gz, moved: nothing was added" try_unchanged "$second"
}
