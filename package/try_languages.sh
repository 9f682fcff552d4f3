# Tries the completions in their shells, the wheel in a new venv, and the crate in a copy.
# package/try reads this file.

# The options in the help, but `--`: shells complete that themselves.
long_options() {
    "$work/unpacked/bin/protoparse" --help | grep -oE '(^  |, )--[a-z_-]+' | tr -d ' ,' | sort
}

try_bash() {
    cd examples
    bash -c 'source "$0/protoparse"; source "$0/protoscan"
        COMP_WORDS=(protoparse --) COMP_CWORD=1; _protoparse
        printf "%s\n" "${COMPREPLY[@]%=}" | grep -x -e "--..*" | sort | diff "$1" -
        COMP_WORDS=(protoscan sh) COMP_CWORD=1; _protoscan
        test "${COMPREPLY[*]}" = shop.proto' \
        "$work/unpacked/share/bash-completion/completions" <(long_options)
}

try_fish() {
    local folder=$work/unpacked/share/fish/vendor_completions.d
    cd examples
    fish --no-config -c "source $folder/protoparse.fish; complete -C 'protoparse --'" |
        cut -f1 | sort | diff <(long_options) -
    fish --no-config -c "source $folder/protoscan.fish; complete -C 'protoscan sh'" |
        cut -f1 | diff <(echo shop.proto) -
}

# A shell in the shell gets a tab. What it would show goes to a file, which is read when it is full.
try_zsh() {
    cat >"$work/complete.zsh" <<'LINES'
zmodload zsh/zpty
zpty shell zsh -f -i
zpty -w shell "PS1=; fpath=($1 \$fpath); autoload -Uz compinit; compinit -D -u"
zpty -w shell "compadd() { local -a all; builtin compadd -O all \"\$@\"
    print -rl -- \$all >>$2; builtin compadd \"\$@\" }"
zpty -w -n shell $'protoparse --\t'
for _ in {1..50}; do sleep 0.2; grep -qs version $2 && break; done
zpty -d shell
LINES
    cd examples
    zsh -f "$work/complete.zsh" "$work/unpacked/share/zsh/site-functions" "$work/completed"
    grep . "$work/completed" | sort -u | diff <(long_options) -
}

try_shells() {
    check "completions: bash" try_bash
    check "completions: zsh" try_zsh
    check "completions: fish" try_fish
}

in_venv() { PYTHONDONTWRITEBYTECODE=1 "$work/venv/bin/$1" "${@:2}"; }

install_wheel() {
    in_venv pip --disable-pip-version-check install --no-index "$folder"/*.whl
}

# Three lines of Python: those of the README in the wheel, for another file.
try_three_lines() {
    sed -n '/^```python$/,/^```$/p' package/python/README.md | sed '/^```/d' >"$work/three.py"
    [ "$(wc -l <"$work/three.py")" -eq 3 ]
    mkdir "$work/three"
    cp examples/store.proto "$work/three/library.proto"
    (cd "$work/three" && in_venv python "$work/three.py") | sed 's/ $//' >"$work/found"
    diff - "$work/found" <<'LINES'
example.store.Article An article,
with a price.
example.store.Article.PartsEntry
example.store.Article.Part
example.store.Nothing An empty message.
LINES
}

try_python_tests() {
    mkdir "$work/python"
    cp examples/ffi/test_protox.py examples/ffi/messages.py "$work/python/"
    in_venv python "$work/python/test_protox.py"
}

# What the program in Rust has to list too.
try_messages() {
    in_venv python "$work/python/messages.py" examples/library.proto >"$work/by_python"
    [ -s "$work/by_python" ]
}

# README's first example: the exception has the first line of what protoparse prints.
try_python_example() {
    local status=0
    in_venv python -c 'import protox; protox.parse_file("examples/refused.proto")' \
        2>"$work/found" || status=$?
    [ "$status" -eq 1 ]
    diff <(readme_lines | head -n 1) <(tail -n 1 "$work/found" | sed 's/^[A-Za-z_.]*: //')
}

# Each public name has a text and, if it is a function, types.
try_types() {
    in_venv python - <<'LINES'
import inspect
import os
import typing

import protox

assert os.path.exists(os.path.join(os.path.dirname(protox.__file__), 'py.typed'))
assert protox.__doc__
for name in ('report', 'parse', 'parse_file', 'link', 'comments', 'messages', 'build'):
    call = getattr(protox, name)
    assert call.__doc__, name
    assert set(typing.get_type_hints(call)) == {*inspect.signature(call).parameters, 'return'}, name
for name in ('Place', 'Fault', 'ParseError', 'LinkError'):
    assert getattr(protox, name).__doc__, name
LINES
}

# The library in the wheel tells the version, the kit and the proof.
try_python_build() {
    in_venv python -c 'import protox; print(protox.build())' >"$work/found"
    grep -qE "^protox $version, $(rt version), rt ci: [1-9][0-9]* passed, 0 failed, commit " "$work/found"
}

remove_wheel() {
    in_venv pip --disable-pip-version-check uninstall --yes protox_parse
    names_below "$work/venv" | diff "$work/venv_names" -
}

try_wheel() {
    check "a new venv" "$python" -m venv --system-site-packages "$work/venv"
    names_below "$work/venv" >"$work/venv_names"
    check "wheel: pip install" install_wheel
    check "wheel: README's first example" try_python_example
    check "wheel: messages with comments in three lines" try_three_lines
    check "wheel: the tests of protox.py" try_python_tests
    check "wheel: types and docstrings" try_types
    check "wheel: messages.py lists messages" try_messages
    check "wheel: version, kit and proof" try_python_build
    check "wheel: pip uninstall leaves nothing" remove_wheel
}

in_crate() { # WORD..: cargo on the copy of the crate
    CARGO_TARGET_DIR=$work/target cargo "$1" --quiet --offline \
        --manifest-path "$work/crate/Cargo.toml" "${@:2}"
}

# The program in the crate lists the messages that the one in Python lists.
try_crate_program() {
    in_crate run --release --example messages -- examples/library.proto >"$work/by_rust"
    diff "$work/by_python" "$work/by_rust"
}

# README's first example: the first line of what protoparse prints.
try_crate_example() {
    local status=0
    in_crate run --release --example messages -- examples/refused.proto 2>"$work/found" || status=$?
    [ "$status" -eq 1 ]
    diff <(readme_lines | head -n 1) "$work/found"
}

# Another crate depends on it by its path, as its README says.
try_dependent() {
    mkdir -p "$work/user/src"
    { printf '[package]\nname = "user"\nversion = "0.1.0"\nedition = "2021"\n\n' &&
        sed -n '/^```toml$/,/^```$/p' package/rust/README.md | sed '/^```/d' |
        sed 's|"protox-ffi" }|"../crate" }|'; } >"$work/user/Cargo.toml"
    { echo 'fn main() {' &&
        sed -n '/^```rust$/,/^```$/p' package/rust/README.md | sed '/^```/d' &&
        echo '}'; } >"$work/user/src/main.rs"
    CARGO_TARGET_DIR=$work/target cargo run --quiet --offline \
        --manifest-path "$work/user/Cargo.toml" >"$work/found"
    diff <(echo 'line 1: message numbers must be between 1 and 536870911') "$work/found"
}

try_crate() {
    cp -r "$folder/protox-ffi" "$work/crate"
    check "crate: its tests" in_crate test --tests
    check "crate: README's first example" try_crate_example
    check "crate: Rust and Python list the same messages" try_crate_program
    check "crate: a crate that depends on it" try_dependent
}
