# What package/build and package/try share: words to the user, tools that are needed, the version.
# The two scripts read this file. It changes into the top of the clone.
top=$(cd "$(dirname "${BASH_SOURCE[0]}")/.." && pwd)
python=${PYTHON:-/usr/bin/python3}
programs=(crates/protoparse/out/protoparse crates/protoscan/out/protoscan
    crates/protolink/out/protolink)
library=crates/protox_ffi/out/libprotox_ffi.a
export LC_ALL=C TZ=UTC
umask 022
cd "$top"

say() { echo "$(basename "$0"): $*" >&2; }
stop() {
    say "$*"
    exit 2
}

# Of lines `command NAME PACKAGE` and `module NAME PACKAGE`: the Debian package of each command, or
# module of Python, that isn't there.
missing() {
    local kind name package
    while read -r kind name package; do
        case $kind in
            command) command -v "$name" >/dev/null || echo "$package" ;;
            module) "$python" -c "import $name" 2>/dev/null || echo "$package" ;;
        esac
    done | sort -u
}

# Installs the Debian packages whose names it reads, and says so. Only root can.
install_missing() {
    local packages
    mapfile -t packages
    if [ ${#packages[@]} -eq 0 ]; then return; fi
    if [ "$(id -u)" -ne 0 ]; then
        stop "these Debian packages are missing; run as root: apt-get install ${packages[*]}"
    fi
    say "installs by apt-get: ${packages[*]}"
    apt-get update -qq
    DEBIAN_FRONTEND=noninteractive apt-get install -y -qq --no-install-recommends \
        "${packages[@]}" >/dev/null
}

# The version stands in one place: the constant that `protoparse --version` prints.
version() {
    sed -n 's/^const VERSION: &str = "protoparse \([0-9.]*\).*/\1/p' \
        crates/protoparse_run/src/lib.rt
}
