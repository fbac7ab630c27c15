# temporary.sh: the parts that the scripts in sh share which prove a program of their own. A script reads it in with `.`, once `here` names
# the script's own folder and `top` the repository's.
#
# look_at_words MOST WORD..: for --help it prints the comment at the script's head, and ends. It refuses any other option, and more
# words than MOST. A script calls it before it starts any work.
look_at_words() {
    most=$1
    shift
    for word in "$@"; do
        case $word in
        -h | --help)
            sed -n '2,/^[^#]/s/^# \{0,1\}//p' "$0"
            exit 0
            ;;
        -*) refuse_word "$word" ;;
        esac
    done
    test $# -le "$most" || refuse_word "$(eval "printf %s \"\${$((most + 1))}\"")"
}

refuse_word() {
    echo "$0: unexpected argument '$1': --help shows what it takes" >&2
    exit 2
}

# take_crates PROGRAM CRATE..: puts these crates, and all crates that they depend on, into a temporary folder, which is gone when the script
# ends. Beside them it puts the script's own program. It is `main.rt.in`, a name that the gate passes over, or the file that `source` names.
# The program may use each of the crates that are named. From then on `build` names the folder, and `program` the folder of the program in
# it. The proofs of a crate come along with their times, so that it isn't proved again.
take_crates() {
    take_libraries "$@"
    cp "${source:-$here/main.rt.in}" "$program/src/main.rt"
}

# take_tests CRATE CRATE..: the same for a crate of tests, whose files are in the script's folder `tests` with `.in` after their
# names. They may use threads, and wait.
take_tests() {
    take_libraries "$@"
    sed -i "s/^$1:/$1 tests_may=Threads+Wait:/" "$build/crates.txt"
    (cd "$here/tests" && find . -name '*.in') | while read -r file; do
        mkdir -p "$program/$(dirname "$file")"
        cp "$here/tests/$file" "$program/${file%.in}"
    done
}

take_libraries() {
    name=$1
    shift
    build=$(mktemp -d)
    trap 'rm -rf "$build"' EXIT INT TERM
    program=$build/crates/$name
    mkdir -p "$program/src"
    cp "$top/HANDLES" "$build/"
    echo "$name: $*" > "$build/crates.txt"
    own=$(for library in "$@"; do test ! -d "$top/crates/$library" || echo "$library"; done)
    libraries=$("$top/tools/crates" with $own)
    "$top/tools/crates" line $libraries | tac >> "$build/crates.txt"
    for library in $libraries; do
        cp -a "$top/crates/$library" "$build/crates/"
    done
}
