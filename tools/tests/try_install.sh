#!/bin/sh
# Installs into a temporary folder, compiles bindings/c/example.c against what was installed, by pkg-config where it is there and else by the
# header's link line, with the archive and with the shared library, and compares what the example prints with bindings/c/stdout. Loads the
# installed Python package and runs the installed ducat, moved and without the repository. Then what tools/install must refuse.
# STARLARK_LIB names another folder than target/native for the library.
# Exit status: 0 as expected; 1 not as expected; 3 skipped: there is no C compiler.
command -v cc >/dev/null 2>&1 || { echo "try_install: skipped for want of cc"; exit 3; }
# shellcheck disable=SC2034
try=try_install tool=tools/install
# shellcheck source=tools/tests/trying.sh
. "$(dirname "$0")/trying.sh"
prefix="$room/a place"
folder=${STARLARK_LIB:-target/native}
version=$(sed -n 's/^#define STARLARK_VERSION "\(.*\)"$/\1/p' include/starlark.h)
shared=libstarlark_checks.so.${version%.*}

tools/install "$prefix" >"$room/told" || fault "install: exit status $?"
tried=$((tried + 1))
for file in lib/libstarlark_checks.a "lib/$shared" include/starlark.h include/starlark_names.h lib/pkgconfig/starlark_checks.pc \
    lib/ducat/ducatmuffin/library.py lib/ducat/ducatmuffin/__init__.py; do
    [ -f "$prefix/$file" ] || fault "$file is not there"
    grep -q "/a place/$file\$" "$room/told" || fault "$file is not printed"
done
[ ! -f ducat ] || [ -x "$prefix/bin/ducat" ] || fault "bin/ducat is not there"
[ "$(find "$prefix" -type f | sort)" = "$(sort "$room/told")" ] || fault "other files are installed than are printed: $(find "$prefix" -type f)"
cmp -s "$folder/libstarlark_checks.a" "$prefix/lib/libstarlark_checks.a" || fault "the archive is not the one that was built"
cmp -s "$folder/libstarlark_checks.so" "$prefix/lib/$shared" || fault "the shared library is not the one that was built"
tools/install "$prefix" >"$room/again" || fault "installing it again: exit status $?"
cmp -s "$room/told" "$room/again" || fault "installing it again prints something else"

# Compiles the example with the given words, and runs it.
runs() {
    way=$1
    shift
    if cc -std=c11 -Wall -Wextra -Werror bindings/c/example.c "$@" -o "$room/example" && "$room/example" >"$room/out"; then
        cmp -s bindings/c/stdout "$room/out" || { fault "$way: the example prints something else:"; diff bindings/c/stdout "$room/out"; }
    else
        fault "$way: the example is not compiled, or does not run"
    fi
    tried=$((tried + 1))
}

# The installed package alone, from another folder, isolated: its library is the installed one and is proved.
loads() {
    said=$(cd / && python3 -I -S -c "import sys; sys.dont_write_bytecode = True; sys.path.insert(0, sys.argv[1] + '/lib/ducat')
from ducatmuffin import build, library
path = build.ensure(None)
print(path == library.load().path == sys.argv[1] + '/lib/' + library.SONAME, library.load(path).proved, library.load(path).version)" "$1") ||
        fault "the installed package: exit status $?"
    [ "$said" = "True True $version" ] || fault "the installed package says $said"
    if [ -x "$1/bin/ducat" ]; then
        (cd / && "$1/bin/ducat" check - <"$OLDPWD/samples/example.table") >"$room/out"
        cmp -s samples/example.out "$room/out" || fault "the installed ducat says $(cat "$room/out")"
    fi
    tried=$((tried + 1))
}

runs "the link line" -I"$prefix/include" -L"$prefix/lib" -lstarlark_checks
runs "the shared library" -I"$prefix/include" "$prefix/lib/$shared" "-Wl,-rpath,$prefix/lib"
loads "$prefix"
if command -v pkg-config >/dev/null 2>&1; then
    PKG_CONFIG_PATH="$prefix/lib/pkgconfig"
    export PKG_CONFIG_PATH
    # as a shell reads it: a folder's name may hold a space
    eval "runs pkg-config $(pkg-config --cflags --libs starlark_checks)"
    [ "$(pkg-config --modversion starlark_checks)" = "$version" ] || fault "pkg-config has another version than the header, $version"
    eval "[ -f $(pkg-config --variable=shared starlark_checks) ]" || fault "pkg-config does not name the shared library"
fi
mv "$prefix" "$room/moved"
if command -v pkg-config >/dev/null 2>&1; then
    PKG_CONFIG_PATH="$room/moved/lib/pkgconfig"
    eval "runs 'pkg-config, moved' $(pkg-config --cflags --libs starlark_checks)"
fi
loads "$room/moved"
for header in starlark.h starlark_names.h; do
    cc -std=c99 -Wall -Wextra -Werror -pedantic -fsyntax-only -x c "include/$header" || fault "$header is not C99"
    ! command -v c++ >/dev/null 2>&1 || c++ -Wall -Wextra -Werror -pedantic -fsyntax-only -x c++ "include/$header" || fault "$header is not C++"
done

mkdir "$room/none"
true >"$room/file"
tells 2 "" "install: usage: tools/install PREFIX"
tells 2 "" "install: usage: tools/install PREFIX" --help
tells 2 "" "install: usage: tools/install PREFIX" "$room/one" "$room/two"
tells 2 "" "install: $room/file/below cannot be written" "$room/file/below"
(
    STARLARK_LIB=$room/none
    export STARLARK_LIB
    tells 2 "" "install: there is no $room/none/libstarlark_checks.a; ./ducat build makes it" "$room/one"
    cp "$folder/libstarlark_checks.a" "$room/none/"
    tells 2 "" "install: there is no $room/none/libstarlark_checks.so; ./ducat build makes it" "$room/one"
    cp samples/example.table "$room/none/libstarlark_checks.so"
    tells 2 "" "install: $room/none/libstarlark_checks.so cannot be loaded: *; ./ducat build makes it anew" "$room/one"
    # a library that says of itself that it is not proved
    echo 'const char starlark_unproved[] = "";' >"$room/unproved.c"
    cc -shared -fPIC "$room/unproved.c" -Wl,--whole-archive "$folder/libstarlark_checks.a" -Wl,--no-whole-archive \
        -o "$room/none/libstarlark_checks.so" || fault "the unproved library is not made"
    tells 2 "" "install: $room/none has a library that is not proved; ./ducat build makes a proved one" "$room/one"
    exit "$faults"
) || fault "a library that is missing, damaged or not proved"
[ ! -e "$room/one" ] || fault "a refusal has made a folder"
mkdir -p "$room/taken/lib/libstarlark_checks.a/full"
expect 2 /dev/null "install: $room/taken/lib/libstarlark_checks.a cannot be written" "$room/taken"

[ "$faults" -eq 0 ] && echo "try_install: the library was installed, moved, compiled against, loaded and run, and $tried tries printed the expected line"
