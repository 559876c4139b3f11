# shellcheck shell=sh
# Where the Rattle kit is, and which crates a crate uses. For sh scripts: . tools/kit.sh
#
# Sets kit (the kit's folder) and kit_toolchain (its compiler and linker). Without rt it sets kit= and returns 1. The Python tools have the same in
# tools/gate/repository.py. A program that rt has built (crates/NAME/out/NAME) is run as it is.
kit=
command -v rt >/dev/null 2>&1 || return 1
kit=$(dirname "$(rt doc)")
kit_toolchain=$kit/toolchain

# By a crates.txt: all, the crates of the repository that a crate uses directly or indirectly, and the crate itself; words, the words behind its
# name, such as staticlib.
kit_crates() { # FILE all|words NAME
    awk -v which="$2" -v wanted="$3" '
        function visit(name, part, count, k) {
            if (!(name in near) || seen[name]++) return
            print name
            count = split(near[name], part, " ")
            for (k = 1; k <= count; k++) visit(part[k])
        }
        { sub(/#.*/, ""); mark = index($0, ":") }
        mark {
            head = substr($0, 1, mark - 1)
            split(head, part, " ")
            name = part[1]
            words[name] = substr(head, index(head, name) + length(name))
            near[name] = substr($0, mark + 1)
        }
        END { if (which == "words") print words[wanted]; else visit(wanted) }' "$1"
}
