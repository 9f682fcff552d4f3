#!/usr/bin/env python3
"""Compares what must be the same in several places: options, usage lines, C names, the version.

usage: package/options.py        anywhere; it takes well under a second

The options in the help of a program are the source: of protoparse and of protolink. The reader of
the options, the man page and the completions must name the same ones. The man page of
the C library must declare the calls of protox.h and name its statuses. The version is that of
`protoparse --version`; CHANGELOG.md must begin with it. The kit that README and `--version`
name must be the one that proves. The last line is 'N passed, M failed'.
"""
import os
import re
import subprocess
import sys

OPTION = r'--?[A-Za-z][\w-]*|--'
passed, failed = 0, 0


def read(path):
    with open(path, encoding='utf-8') as file:
        return file.read()


def compare(what, expected, found):
    """Counts a comparison, and prints both sides if they differ."""
    global passed, failed
    if expected == found and expected:
        passed += 1
    else:
        failed += 1
        print(f'FAILED {what}: expected {expected}, found {found}')


def words_of(texts):
    """The options in the texts, sorted: `-I` and `--proto_path` of `-I DIR, --proto_path=DIR`."""
    found = set()
    for text in texts:
        found.update(re.findall(rf'(?:^|(?<=[\s,]))({OPTION})(?=$|[\s,=])', text))
    return sorted(found)


def options_of_help(source):
    text = re.search(r'const HELP: &str = "(.*?)";', source, flags=re.S).group(1)
    return words_of(re.findall(r'^  (-.*?)(?:  |$)', text, flags=re.M))


def options_of_reader(source):
    """The texts in quotes that begin with a dash, without their `=`; `-` alone is a file."""
    return sorted({it.rstrip('=') for it in re.findall(r'"(-[^"]*)"', source)} - {'-'})


def options_of_man(source):
    """Each item `.It Fl ..`: `Fl -text` stands for `--text`."""
    items = re.findall(r'^\.It (Fl .*)$', source, flags=re.M)
    return sorted({'-' + it for line in items for it in re.findall(r'Fl (\S+)', line)})


def options_of_bash(source):
    text = re.search(r"local options='(.*?)'", source, flags=re.S).group(1)
    return sorted(it.rstrip('=') for it in text.split())


def options_of_zsh(source):
    """What stands between the first quote of a line and `[`, without `*`, `(-)`, `+` and `=`."""
    found = set()
    lines = re.findall(r"^ +'(?:\(-\)'\{(.*?)\}'|(?:\*|\(-\))(-.*?))\[", source, flags=re.M)
    for braces, plain in lines:
        found.update(it.rstrip('+=') for it in (braces or plain).split(','))
    return sorted(found)


def options_of_fish(source):
    short, long = re.findall(r' -s (\S)', source), re.findall(r' -l (\S+)', source)
    return sorted(['-' + it for it in short] + ['--' + it for it in long])


def options_of_link(source):
    """Those of the help of protolink, which writes `-IPATH` and `-oFILE`."""
    text = re.search(r'const HELP: &str = "(.*?)";', source, flags=re.S).group(1)
    text = re.sub(r'^  (-[Io])(?:PATH|FILE),', r'  \1,', text, flags=re.M)
    return words_of(re.findall(r'^  (-.*?)(?:  |$)', text, flags=re.M))


def compare_options_of_link():
    wanted = options_of_link(read('crates/protolink_run/src/lib.rt'))
    reader = set(options_of_reader(read('crates/protolink_words/src/flags.rt')))
    # protoc takes this one too, and does nothing
    reader -= {'--experimental_allow_proto3_optional'}
    compare('options that protolink reads', wanted, sorted(reader))
    compare('protolink(1)', wanted, options_of_man(read('package/man/protolink.1')))
    folder = 'package/completions'
    compare('protolink in bash', wanted, options_of_bash(read(f'{folder}/protolink.bash')))
    compare('protolink in zsh', wanted, options_of_zsh(read(f'{folder}/_protolink')))
    compare('protolink in fish', wanted, options_of_fish(read(f'{folder}/protolink.fish')))


def compare_options():
    source = read('crates/protoparse_run/src/lib.rt')
    wanted = options_of_help(source)
    reader = read('crates/protoparse_words/src/listed.rt')
    compare('options that are read', wanted, options_of_reader(reader))
    compare('protoparse(1)', wanted, options_of_man(read('package/man/protoparse.1')))
    compare('bash', wanted, options_of_bash(read('package/completions/protoparse.bash')))
    # The shells zsh and fish complete `--` themselves.
    wanted = [it for it in wanted if it != '--']
    compare('zsh', wanted, options_of_zsh(read('package/completions/_protoparse')))
    compare('fish', wanted, options_of_fish(read('package/completions/protoparse.fish')))


def synopsis(page):
    return re.search(r'^\.Sh SYNOPSIS\n(.*?)^\.Sh', page, flags=re.M | re.S).group(1)


def usage_of_man(page):
    """The words of the synopsis: `Op Ar PATH` stands for `[PATH]`."""
    words = [re.sub(r'^\.Op Ar (.*)', r'[\1]', line) for line in synopsis(page).split('\n')]
    return ' '.join(re.sub(r'^\.Ar ', '', word) for word in words if word not in ('', '.Nm'))


def compare_usage():
    for name in ('protoparse', 'protoscan', 'protolink'):
        source = read(f'crates/{name}_run/src/lib.rt')
        usage = re.search(rf'"usage: {name} (.*?)(?: \(|\\n|\n)', source).group(1)
        found = usage_of_man(read(f'package/man/{name}.1')).replace(' ...', '..')
        compare(f'usage of {name}', usage, found)


def compare_header():
    header, page = read('examples/ffi/protox.h'), read('package/man/protox.3')
    calls = re.findall(r'^uint32_t (protox_\w+)\(', header, flags=re.M)
    shown = re.findall(r'^\.F[on] (protox_\w+)', synopsis(page), flags=re.M)
    compare('calls in protox(3)', sorted(calls), sorted(shown))
    statuses = re.search(r'enum protox_status \{(.*?)\}', header, flags=re.S).group(1)
    shown = re.findall(r'^\.It Dv (\w+) No \((\d+)\)$', page, flags=re.M)
    compare('statuses in protox(3)', re.findall(r'^ +(\w+) = (\d+)', statuses, flags=re.M), shown)
    number = re.findall(r'#define PROTOX_VERSION (\d+)', header)
    shown = re.findall(r'^VERSION = (\d+)$', read('examples/ffi/protox.py'), flags=re.M)
    compare('PROTOX_VERSION in protox.py', number, shown)
    shown = re.findall(r'^soname=libprotox\.so\.(\d+)$', read('package/parts.sh'), flags=re.M)
    compare('the number in the soname', number, shown)


def compare_version():
    source = read('crates/protoparse_run/src/lib.rt')
    version = re.findall(r'^const VERSION: &str = "protoparse ([0-9.]+)', source, flags=re.M)
    newest = re.findall(r'^## ([0-9.]+)', read('CHANGELOG.md'), flags=re.M)[:1]
    compare('the newest version in CHANGELOG.md', version, newest)
    ran = subprocess.run(['rt', 'version'], stdout=subprocess.PIPE, check=True)
    named = sorted(set(re.findall(r'rattle-kit-\w+', read('README.md'))))
    compare('the kit in README.md', ran.stdout.decode().split()[:1], named)
    told = re.findall(r'^const VERSION: &str = "protoparse [0-9.]+ \((.*)\)$', source, flags=re.M)
    compare('the kit in protoparse --version', named, told)
    link = read('crates/protolink_run/src/lib.rt')
    told = re.findall(r'^const VERSION: &str = "protolink ([0-9.]+) \((.*)\)$', link, flags=re.M)
    compare('protolink --version', list(zip(version, named)), told)


def main():
    os.chdir(os.path.join(os.path.dirname(os.path.abspath(__file__)), '..'))
    compare_options()
    compare_options_of_link()
    compare_usage()
    compare_header()
    compare_version()
    print(f'{passed} passed, {failed} failed')
    return 1 if failed else 0


if __name__ == '__main__':
    sys.exit(main())
