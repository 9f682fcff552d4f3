# The forms of the packages, each made of the folder $work/parts: a tar.gz, two packages for Debian,
# a wheel and a crate. package/build reads this file. $folder is where they go.
tuple=x86_64-linux-gnu
linked=(examples/linked/shop/cart.proto examples/linked/shop/item.proto
    examples/linked/shop/wrong.proto)
examples=(examples/foo.proto examples/library.proto examples/refused.proto examples/shop.proto
    examples/store.proto)

put() { # MODE FOLDER FILE..: copies files into a folder, which it makes
    local mode=$1 to=$2
    shift 2
    mkdir -p "$to"
    install -m "$mode" "$@" "$to/"
}

# Fixed times on all that a package holds.
settle() {
    find "$1" -exec touch -h -d "@$SOURCE_DATE_EPOCH" {} +
}

put_programs() { # ROOT
    put 755 "$1/bin" "$work"/parts/{protoparse,protoscan,protolink}
    put 644 "$1/share/man/man1" "$work"/parts/man/*.1
    put 644 "$1/share/fish/vendor_completions.d" package/completions/*.fish
    local name
    for name in protoparse protoscan protolink; do
        mkdir -p "$1/share/bash-completion/completions"
        install -m 644 "package/completions/$name.bash" \
            "$1/share/bash-completion/completions/$name"
    done
}

# LIBDIR is the folder of libraries below ROOT, and PREFIX says how protox.pc finds ROOT. Each call
# of the library has a man page under its own name.
put_library() { # ROOT LIBDIR PREFIX
    local call
    put 644 "$1/include" examples/ffi/protox.h
    put 644 "$1/$2" "$work/parts/libprotox.a" "$work/parts/$soname"
    ln -s "$soname" "$1/$2/libprotox.so"
    mkdir -p "$1/$2/pkgconfig"
    fill package/protox.pc "PREFIX=$3" "LIBDIR=$2" >"$1/$2/pkgconfig/protox.pc"
    put 644 "$1/share/man/man3" "$work"/parts/man/*.3
    for call in protox_parse_to_descriptor protox_report protox_link protox_link_with_options \
        protox_version; do
        ln -s protox.3 "$1/share/man/man3/$call.3"
    done
}

put_texts() { # FOLDER
    put 644 "$1" "$work"/parts/{README.md,PROVED.md,BUILD.txt,copyright}
}

put_examples() { # FOLDER FILE..
    local to=$1
    shift
    put 644 "$to" "$@"
}

make_tar() {
    local name=protox-$version root
    root=$work/tar/$name
    put_programs "$root"
    put 644 "$root/share/zsh/site-functions" package/completions/_*
    put_library "$root" lib '${pcfiledir}/../..'
    put_texts "$root/share/doc/protox"
    put 644 "$root/share/doc/protox" "$work/parts/CHANGELOG.md"
    install -m 644 /usr/share/common-licenses/Apache-2.0 "$root/share/doc/protox/LICENSE-APACHE"
    put_examples "$root/share/doc/protox/examples" "${examples[@]}" \
        examples/ffi/{check,link}.c examples/many/Makefile
    put 644 "$root/share/doc/protox/examples/linked/shop" "${linked[@]}"
    settle "$root"
    tar -C "$work/tar" --sort=name --mtime="@$SOURCE_DATE_EPOCH" --owner=0 --group=0 \
        --numeric-owner --format=gnu -cf - "$name" |
        gzip -9n >"$folder/$name-linux-x86_64.tar.gz"
}

# What Debian asks of every package: the changes, a copyright, man pages and changes packed by gzip.
put_debian() { # ROOT PACKAGE
    local doc=$1/usr/share/doc/$2 page
    put_texts "$doc"
    gzip -9nc "$work/parts/CHANGELOG.md" >"$doc/changelog.gz"
    fill package/debian/changelog | gzip -9nc >"$doc/changelog.Debian.gz"
    find "$1/usr/share/man" -type f -exec gzip -9n {} +
    for page in $(find "$1/usr/share/man" -type l); do
        ln -s "$(readlink "$page").gz" "$page.gz"
        rm "$page"
    done
    chmod 644 "$doc"/*.gz
}

# The packages of Debian that hold what programs or libraries load.
depends_of() { # FILE..
    mkdir -p "$work/shlibs/debian"
    printf 'Source: protox\n\nPackage: protox-tools\nArchitecture: amd64\n' \
        >"$work/shlibs/debian/control"
    (cd "$work/shlibs" && dpkg-shlibdeps -O "$@" 2>/dev/null) |
        sed -n 's/^shlibs:Depends=//p'
}

# Makes the .deb of a root: the sums and the sizes are those of what is in it.
build_deb() { # ROOT PACKAGE FILE..: FILES are what it loads libraries for
    local root=$1 package=$2 depends
    shift 2
    depends=$(depends_of "$@")
    mkdir -p "$root/DEBIAN"
    (cd "$root" && find usr -type f | sort | xargs md5sum) >"$root/DEBIAN/md5sums"
    fill "package/debian/$package.control" "DEPENDS=$depends" "KITNAME=${kit%% *}" \
        "SIZE=$(du -sk --apparent-size "$root/usr" | cut -f1)" >"$root/DEBIAN/control"
    settle "$root"
    dpkg-deb --root-owner-group -Zxz --threads-max=1 --build "$root" \
        "$folder/${package}_$version-1_amd64.deb" >/dev/null
}

make_tools_deb() {
    local root=$work/tools
    put_programs "$root/usr"
    put 644 "$root/usr/share/zsh/vendor-completions" package/completions/_*
    put_debian "$root" protox-tools
    put_examples "$root/usr/share/doc/protox-tools/examples" "${examples[@]}" examples/many/Makefile
    put 644 "$root/usr/share/doc/protox-tools/examples/linked/shop" "${linked[@]}"
    build_deb "$root" protox-tools "$root"/usr/bin/{protoparse,protoscan,protolink}
}

make_library_deb() {
    local root=$work/library
    put_library "$root/usr" "lib/$tuple" /usr
    put_debian "$root" libprotox-dev
    put_examples "$root/usr/share/doc/libprotox-dev/examples" examples/ffi/{check,link}.c \
        examples/refused.proto examples/foo.proto
    mkdir -p "$root/DEBIAN"
    echo 'activate-noawait ldconfig' >"$root/DEBIAN/triggers"
    echo "libprotox ${soname##*.} libprotox-dev (>= $version)" >"$root/DEBIAN/shlibs"
    build_deb "$root" libprotox-dev "$root/usr/lib/$tuple/$soname"
}

make_wheel() {
    local root=$work/wheel
    put 644 "$root/protox" "$work/parts/BUILD.txt"
    install -m 644 examples/ffi/protox.py "$root/protox/__init__.py"
    install -m 644 "$work/parts/$soname" "$root/protox/libprotox.so"
    touch "$root/protox/py.typed"
    put 644 "$root" package/python/setup.py package/python/README.md "$work/parts/copyright"
    fill package/python/pyproject.toml >"$root/pyproject.toml"
    settle "$root"
    "$python" -m build --wheel --no-isolation --outdir "$folder" "$root" >out/wheel.log 2>&1 ||
        stop "python3 -m build failed; see out/wheel.log"
}

make_crate() {
    local root=$folder/protox-ffi
    put 644 "$root" package/rust/build.rs package/rust/README.md "$work"/parts/{BUILD.txt,copyright}
    fill package/rust/Cargo.toml >"$root/Cargo.toml"
    put 644 "$root/native" "$work/parts/libprotox.a"
    put 644 "$root/tests" package/rust/calls.rs
    mkdir "$root/src" "$root/examples"
    install -m 644 examples/ffi/rust/src/protox.rs "$root/src/lib.rs"
    sed 's/^mod protox;$/use protox_ffi as protox;/' examples/ffi/rust/src/main.rs \
        >"$root/examples/messages.rs"
    sed -e '/^#\[path/d' -e 's/^mod protox;$/use protox_ffi as protox;/' \
        examples/ffi/rust/src/bin/link.rs >"$root/examples/link.rs"
    settle "$root"
}
