#!/bin/sh
# Runs tools/native-lib with a made-up kit whose rt proves two crates and refuses the third: each crate is reported when it is proved, rt's last words
# are passed on, the exit status is 1, and no archive is made. Then with one that proves all, and on crates that are no static library.
# shellcheck disable=SC2034
try=try_native tool=tools/native-lib
# shellcheck source=tools/tests/trying.sh
. "$(dirname "$0")/trying.sh"
mkdir -p "$room/tools" "$room/crates/upper_c/src" "$room/crates/lower/src" "$room/bin" || exit 2
cp tools/native-lib tools/kit.sh "$room/tools/"
printf '%s\n' 'base:' 'middle: base' 'lower: middle' 'upper_c staticlib: lower' >"$room/crates.txt"
true >"$room/crates/upper_c/src/lib.rt"
true >"$room/crates/lower/src/lib.rt"
cat >"$room/bin/rt" <<END
#!/bin/sh
case \$1 in
doc) echo "$room/kit/START-HERE.md" ;;
lib)
    [ "\$PWD" = "\$(cd "$room" && pwd -P)/crates/upper_c" ] || exit 2
    printf '%s\n' 'fn base::f: proved' 'crate base: modules loaded=0 checked=3' 'logic=proved functions=1' 'crate middle: modules loaded=0 checked=3' 'logic=proved functions=0' >&2
    # the first two are reported before rt ends
    tries=0
    until [ "\$(grep -c 'crates\$' "$room/err")" -eq 2 ] || [ "\$tries" -eq 100 ]; do sleep 0.1; tries=\$((tries + 1)); done
    [ "\$tries" -lt 100 ] || exit 1
    if [ -e "$room/proves" ]; then
        printf '%s\n' 'crate upper_c: modules loaded=0 checked=3' 'logic=proved functions=1'
        mkdir -p out
        [ -e "$room/forgets" ] || echo archive >out/libupper_c.a
        exit 0
    fi
    printf '%s\n' 'crate lower: modules loaded=0 checked=3' 'logic=not-proved'
    exit 1
    ;;
esac
END
chmod +x "$room/bin/rt"
PATH=$room/bin:$PATH
export PATH

# Runs native-lib on a crate, with the exit status that is expected.
native() { # STATUS NAME
    "$room/tools/native-lib" "$2" >"$room/out" 2>"$room/err"
    got=$?
    [ "$got" -eq "$1" ] || fault "$2: exit status $got, expected $1: $(cat "$room/err")"
}

native 1 upper_c
cat >"$room/expected" <<END
native-lib: proving upper_c and the crates that it uses; without earlier proofs this takes some minutes
native-lib: base proved, 1 of 4 crates
native-lib: middle proved, 2 of 4 crates
fn base::f: proved
crate base: modules loaded=0 checked=3
logic=proved functions=1
crate middle: modules loaded=0 checked=3
logic=proved functions=0
crate lower: modules loaded=0 checked=3
logic=not-proved
END
[ ! -s "$room/out" ] || fault "printed $(cat "$room/out")"
diff "$room/expected" "$room/err" || fault "said something else than expected"
[ ! -e "$room/target/native/libupper.a" ] || fault "an archive was made of a crate that is not proved"

true >"$room/proves"
true >"$room/forgets"
native 2 upper_c
[ ! -e "$room/target/native/libupper.a" ] || fault "an archive was made of nothing"
rm "$room/forgets"
native 0 upper_c
[ "$(tail -n 1 "$room/err")" = "native-lib: upper_c proved, 4 of 4 crates" ] || fault "the last crate: $(cat "$room/err")"
[ "$(cat "$room/out")" = "$(cd "$room" && pwd -P)/target/native/libupper.a" ] || fault "printed $(cat "$room/out")"
[ "$(cat "$room/target/native/libupper.a")" = archive ] || fault "the archive is not what rt has made"
for name in lower nowhere; do
    native 2 "$name"
    [ ! -s "$room/out" ] || fault "$name: printed $(cat "$room/out")"
done
[ "$faults" -eq 0 ] && echo "try_native: native-lib reports each crate while it proves, and compiles nothing that is not proved"
