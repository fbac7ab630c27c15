# The parts that bindings/build, check, install and release share. A script that reads this has its own folder in 'here'.

top=$(dirname "$here")
out=$here/out
cc=${CC:-cc}
warnings="-std=c11 -Wall -Wextra -pedantic -Werror"
version=$(cat "$top/VERSION")
abi=$(sed -n 's/^#define TG_ABI //p' "$here/kovshenul.h")
shared=libkovshenul.so.$abi
archive=$top/crates/tg_exports/out/libtg_exports.a
extension=$here/python/kovshenul/_extension.abi3.so
programs="tgstore tgaudit tgcould tgdot"

say() {
    echo "bindings: $1"
}

stop() {
    echo "bindings: $1" >&2
    exit 1
}

# Ends a call that has wrong words: what is wrong, and how the call goes.
misused() {
    echo "$1" >&2
    echo "usage: $2" >&2
    exit 2
}

# Prints what is at the head of the script that reads this, and ends, where one of its words asks for that.
helps() {
    for word in "$@"; do
        case $word in
        -h | --help)
            sed -n '2,/^[^#]/s/^# \{0,1\}//p' "$0"
            exit 0
            ;;
        esac
    done
}

has() {
    command -v "$1" >/dev/null 2>&1 || {
        say "$1 isn't here: $2 left out"
        return 1
    }
}

# Ends the run where one of the programs that it needs isn't there.
needs() {
    for program in "$@"; do
        command -v "$program" >/dev/null 2>&1 || stop "$program isn't here, and $(basename "$0") needs it"
    done
}

# ---- sums

# The sum of standard input.
sum() {
    sha256sum | cut -d ' ' -f 1
}

# The crates below tg_exports, lowest first, and tg_exports after them.
crates_of_library() {
    "$top/tools/crates" with tg_exports
}

# The files of a crate's folder, as sources of it.
files_of_crate() {
    find "$1" -path "$1/out" -prune -o -type f -print
}

# A sum over the files from which the proved archive is made, or a program if it is named. They are the kit, and the line of
# crates.txt and the text of its crate and of each crate below it.
sum_of_text() {
    (
        set -o pipefail
        cd "$top"
        export LC_ALL=C
        {
            rt version
            tools/crates line $(tools/crates with "${1-tg_exports}") | while read -r line; do
                echo "$line"
                files_of_crate "crates/${line%%[ :]*}" | sort | tr '\n' '\0' | xargs -0 sha256sum
            done
        } | sum
    )
}

# The sum of the text of which the archive was proved, which bindings/build leaves beside it. There is none if the archive has
# changed.
sum_of_proved() {
    text=none
    if test -e "$archive" && test -e "$archive.of"; then
        read -r text bytes <"$archive.of"
        test "$bytes" = "$(sum <"$archive")" || text=none
    fi
    echo "$text"
}

# Where a program is built.
program_at() {
    echo "$top/crates/$1/out/$1"
}

# Whether 'bindings/build programs' left the program, as it was proved of the texts that are there now. It keeps a line for each,
# with its name, the sum of its texts and its own sum.
is_proved_program() {
    test -x "$(program_at "$1")" && test -e "$out/programs" &&
        grep -qxF "$1 $(sum_of_text "$1") $(sum <"$(program_at "$1")")" "$out/programs"
}

# A sum over what comes before the proved calls.
sum_of_c() {
    cat "$here/kovshenul.c" "$here/naming.c" "$here/showing.c" "$here/writer.h" "$here/kovshenul.h" "$top/VERSION" | sum
}

# A sum over the library as it lies in 'out', or none where a part of it isn't there. An earlier version left a link there, which 'rt
# ci' refuses.
sum_of_library() {
    if test -e "$out/libkovshenul.a" && test -e "$out/$shared" && test -e "$out/libkovshenul.so" && ! test -L "$out/libkovshenul.so"; then
        cat "$out/libkovshenul.a" "$out/$shared" | sum
    else
        echo none
    fi
}

# Whether the library in 'out' fits the header, the modules and the crate here. With the sum of a text it also says whether the
# library is of this text.
is_library_of() {
    test -e "$out/built" || return 1
    read -r of_c of_text of_library <"$out/built"
    test "$of_c $of_library" = "$(sum_of_c) $(sum_of_library)" || return 1
    test $# = 0 || test "$of_text" = "$1"
}

# Ends the run if there is no library that fits the header, the modules and the crate here, or if an extension module doesn't fit.
wants_library() {
    test -e "$out/libkovshenul.a" || stop "nothing is built: no $out/libkovshenul.a. Run bindings/build first"
    is_library_of ||
        stop "the library in $out is of another header or version, or changed since it was built: run bindings/build first"
    test "$(cat "$out/built_extension" 2>/dev/null)" = "$(sum_of_extension)" ||
        stop "Python's extension module changed since it was built, or its sources did: run bindings/build first"
}

# ---- Python's extension module

# The folder with the headers of Python. There is nothing if they aren't there, or if they are of a Python before 3.11.
headers_of_python() {
    python3 - <<'TEXT'
import pathlib, sys, sysconfig
folder = pathlib.Path(sysconfig.get_paths()["include"])
print(folder if sys.version_info >= (3, 11) and (folder / "Python.h").exists() else "")
TEXT
}

# A sum over the sources of the extension module, and over the module where it is there.
sum_of_extension() {
    {
        cat "$here"/python/extension/*.[ch] "$here/kovshenul.h"
        test ! -e "$extension" || cat "$extension"
    } | sum
}

# Compiles the extension module: the file that it goes to, and further words for the compiler.
compile_extension() {
    (
        file=$1
        shift
        cd "$here/python/extension"
        export LC_ALL=C
        "$cc" $warnings -O2 -fPIC -fvisibility=hidden -shared "$@" -I"$here" -isystem "$(headers_of_python)" -o "$file" *.c
    )
}

# ---- what is put into an installation or a release

put() {
    mkdir -p "$2"
    install -m 644 "$1" "$2/"
}

# Puts a file of bindings/packages into a folder, with its open places filled in. The third word is the prefix.
fill() {
    escaped=$(printf '%s' "${3-}" | sed 's/[\\|&]/\\&/g')
    sed "s|@PREFIX@|$escaped|; s|@SHARED@|$shared|; s|@VERSION@|$version|" "$here/packages/$1.in" >"$2/$1"
}

# The files that C needs, below a folder. The second word is the prefix that pkg-config reads.
put_for_c() {
    cmake=$1/lib/cmake/kovshenul
    mkdir -p "$1/lib/pkgconfig" "$cmake"
    put "$here/kovshenul.h" "$1/include"
    put "$out/libkovshenul.a" "$1/lib"
    install -m 755 "$out/$shared" "$1/lib/"
    ln -sf "$shared" "$1/lib/libkovshenul.so"
    fill kovshenul.pc "$1/lib/pkgconfig" "$2"
    fill kovshenul-config.cmake "$cmake"
    fill kovshenul-config-version.cmake "$cmake"
    put_pages "$1/share/man"
}

# The programs that were proved, and the program that makes pages of runs.
put_programs() {
    for program in $programs; do
        ! is_proved_program "$program" || install -D -m 755 "$(program_at "$program")" "$1/bin/$program"
    done
    put "$top/viewer/page.css" "$1/share/kovshenul/viewer"
    put "$top/viewer/page.js" "$1/share/kovshenul/viewer"
    install -m 755 "$top/viewer/page" "$1/share/kovshenul/viewer/"
}

# The pages and the examples, at the places that their links name.
put_docs() {
    (
        cd "$top"
        git ls-files -z --cached --others --exclude-standard README.md CHANGELOG.md SECURITY.md VERSION 'docs/*.md' 'docs/*.svg' 'docs/*.txt' \
            bindings/examples bench/README.md bench/LEARNT.md tests/README.md evidence
    ) | while IFS= read -r -d '' file; do
        mode=644
        test ! -x "$top/$file" || mode=755
        install -D -m "$mode" "$top/$file" "$1/share/doc/kovshenul/$file"
    done
}

# The man pages: the library's, which is made from the header, and those in docs/man.
put_pages() {
    mkdir -p "$1/man3"
    "$here/packages/page" >"$1/man3/kovshenul.3"
    for page in "$top"/docs/man/*.[1-9]; do
        test -e "$page" || continue
        put "$page" "$1/man${page##*.}"
    done
}

# The crate for Rust, without the examples, whose texts lie beside it.
put_crate() {
    mkdir -p "$1/src"
    sed '/^\[\[example\]\]/,$d' "$here/rust/Cargo.toml" >"$1/Cargo.toml"
    for file in Cargo.lock build.rs; do
        put "$here/rust/$file" "$1"
    done
    install -m 644 "$here"/rust/src/*.rs "$1/src/"
}
