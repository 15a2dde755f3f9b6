#!/usr/bin/env bash
# Builds the library for C and C++ hosts from nothing but this repository, and tries it: the examples, the header in each
# version of both languages and with each compiler that is there, the program that the README prints, and what
# tools/install.sh puts below a prefix. Structs cross by value, so that each is compiled without optimizing and with it. A
# call whose answer is dropped must not compile where that warning is made an error, and a number for a taint nowhere. The examples
# and the header are compiled at the highest level of warnings that each compiler has.
set -eo pipefail
cd "$(dirname "${BASH_SOURCE[0]}")/.."
bash tools/library.sh
room=$(mktemp -d)
trap 'rm -rf "$room"' EXIT
strict=(-pedantic -Wall -Wextra -Werror)
archive=target/staticlib/libmilestarling.a

# The highest level of a compiler, in the array `highest`. What clang has beyond it is about padding, which no struct minds, about
# what later standards allow, and about pointers that aren't C++ containers.
set_highest() { # COMPILER
    highest=("${strict[@]}" -Wconversion -Wsign-conversion -Wshadow -Wcast-qual -Wundef -Wformat=2 -Wnull-dereference
        -Wdouble-promotion -Wwrite-strings -Wswitch-default -Wswitch-enum -Wredundant-decls -Wfloat-equal -Wpointer-arith
        -Wvla -Winit-self -Wmissing-declarations)
    case $1 in
    clang*) highest=("${strict[@]}" -Weverything -Wno-padded -Wno-declaration-after-statement -Wno-c++98-compat
        -Wno-c++98-compat-pedantic -Wno-unsafe-buffer-usage -Wno-unknown-warning-option) ;;
    g++) highest+=(-Wcast-align=strict -Wduplicated-cond -Wduplicated-branches -Wlogical-op -Wold-style-cast -Wuseless-cast
        -Wzero-as-null-pointer-constant -Wextra-semi) ;;
    *) highest+=(-Wcast-align=strict -Wduplicated-cond -Wduplicated-branches -Wlogical-op -Wstrict-prototypes
        -Wmissing-prototypes -Wold-style-definition -Wbad-function-cast -Wnested-externs -Wjump-misses-init) ;;
    esac
}

try() { # EXAMPLE EXPECTED [WORDS...]
    local example=$1 expected=$2 compilers="gcc clang" standard=c11 compiler level
    shift 2
    case $example in *.cpp) compilers="g++ clang++" standard=c++11 ;; esac
    for compiler in $compilers; do
        command -v "$compiler" > /dev/null || continue
        set_highest "$compiler"
        for level in -O0 -O2; do
            "$compiler" "-std=$standard" "$level" "${highest[@]}" -Iinclude -o "$room/example" "examples/$example" "$archive"
            "$room/example" "$@" | diff - "$expected"
        done
    done
}

try login.c tests/host.expected
try login.cpp tests/host.expected
try stream.c tests/stream.expected
try lock_host.c tests/lock.expected
try turns.c tests/turns.expected examples/lock.bin
try why.c tests/why.expected
try plugins.c tests/plugins.expected
try plugin.c tests/plugin.expected examples/plugin/{compare,compare_early,look_up,look_up_kind,copy_by_kind,copy_by_letter}.bin
echo "host: the examples wrote what tests/*.expected have"

# A library of another version than the header's is said to be one; a later patch of the same isn't another.
number=$(printf '#include "milestarling.h"\nMILESTARLING_VERSION_NUMBER\n' | cc -x c -Iinclude -E -P - | tail -n 1 | tr -d U)
linked() { # NUMBER
    echo "unsigned milestarling_version(void); unsigned milestarling_version(void) { return $1; }" |
        cc -x c -Iinclude -o "$room/versions" examples/login.c - -x none "$archive"
    "$room/versions" 2>&1
}
linked "$number + 1" | diff - tests/host.expected
for other in 2003 "$number - 1" "$number + 1000" "$number + 1000000"; do
    if linked "$other" > "$room/said"; then
        echo "host: a library of version $other was taken for $number"
        exit 1
    fi
    grep -qx "the library is version [0-9.]*, and the header [0-9.]*" "$room/said"
done
echo "host: a library of another version was told from this one"

# Instructions as numbers, held against their text; and why a byte is tainted, and turns of two plugins, against answers worked by
# hand.
for level in -O0 -O2; do
    for program in records why turns; do
        cc -std=c11 "$level" "${strict[@]}" -Iinclude -o "$room/$program" "tests/$program.c" "$archive"
        "$room/$program"
    done
done

# Rescued listings, held against lines worked by hand.
for level in -O0 -O2; do
    cc -std=c11 "$level" "${strict[@]}" -Iinclude -o "$room/rescue" tests/rescue.c "$archive"
    "$room/rescue"
done

# Which words touch memory, of all values of the bits that say so.
cc -std=c11 -O2 "${strict[@]}" -Iinclude -o "$room/touches" tests/touches.c "$archive"
"$room/touches"

# Every function that the header declares and that returns anything is called by tests/unused.c.
sed -nE '/^(static inline )?void /d; s/^[a-z].*[ *](milestarling_[a-z_]+)\(.*/\1/p' include/milestarling.h | sort > "$room/declared"
sed -nE 's/.*ANSWER\(.*, (milestarling_[a-z_]+)\(.*/\1/p' tests/unused.c | sort | diff "$room/declared" -
answering=$(wc -l < "$room/declared")

# The header's texts are those of docs/ANSWERS.md, and its version is the Rust package's.
sed -n '/^| Answer | Text |$/,$p' docs/ANSWERS.md | tail -n +3 > "$room/said"
version=$(sed -n 's/^version = "\(.*\)"$/\1/p' bindings/rust/Cargo.toml)
echo "$version $version" >> "$room/said"
wrongs=$(sed -nE 's/^#(el)?if WRONG == ([0-9]+)$/\2/p' tests/taints.c | paste -s -d ' ')
versions=0
for compiler in gcc g++ clang clang++; do
    command -v "$compiler" > /dev/null || continue
    case $compiler in
    *++) standards="c++11 c++14 c++17 c++20" language=c++ ;;
    *) standards="c99 c11 c17 c2x" language=c ;;
    esac
    # clang stops at 20 errors by itself.
    case $compiler in clang*) every_error=-ferror-limit=0 ;; *) every_error=-fmax-errors=0 ;; esac
    for standard in $standards; do
        set_highest "$compiler"
        # The test is C in C++ too, where it has C's casts and null pointers; the header has none.
        case $compiler in
        *++)
            "$compiler" "-std=$standard" "${highest[@]}" -Iinclude -c -o "$room/header.o" examples/login.cpp
            highest+=(-Wno-old-style-cast -Wno-zero-as-null-pointer-constant -Wno-useless-cast)
            ;;
        esac
        for level in -O0 -O2; do
            "$compiler" -x "$language" "-std=$standard" "$level" "${highest[@]}" -Iinclude -o "$room/header" \
                tests/header.c -x none "$archive"
            "$room/header" | diff - "$room/said"
        done
        unused=("$compiler" -x "$language" "-std=$standard" -Iinclude -c -o "$room/unused.o" tests/unused.c)
        "${unused[@]}" "${strict[@]}" -Wconversion
        if "${unused[@]}" -DIGNORED -Werror=unused-result "$every_error" 2> "$room/warned"; then
            echo "host: $compiler -std=$standard lets an answer be dropped"
            exit 1
        fi
        [ "$(grep -c 'error: .*unused-result' "$room/warned")" -eq "$answering" ] || { cat "$room/warned"; exit 1; }
        taints=("$compiler" -x "$language" "-std=$standard" -Iinclude -c -o "$room/taints.o" tests/taints.c)
        "${taints[@]}" "${strict[@]}" -Wconversion
        for wrong in $wrongs; do
            if "${taints[@]}" "-DWRONG=$wrong" 2> "$room/said_of_taint"; then
                echo "host: $compiler -std=$standard takes line $wrong of tests/taints.c"
                exit 1
            fi
            grep -q 'error: ' "$room/said_of_taint" || { cat "$room/said_of_taint"; exit 1; }
        done
        versions=$((versions + 1))
    done
done
# GNU's C89 has inline functions and compound literals, and is what some hosts are still compiled as.
for compiler in gcc clang; do
    command -v "$compiler" > /dev/null || continue
    "$compiler" -std=gnu89 -Wall -Wextra -Wconversion -Werror -Iinclude -o "$room/header" tests/header.c "$archive"
    "$room/header" | diff - "$room/said"
    versions=$((versions + 1))
done
echo "host: the header was compiled without a warning in $versions versions of C and C++"
echo "host: in each of them a dropped answer is an error, of each of the $answering functions that answer"
echo "host: and none of them takes a number for a taint, nor the record's taint of one byte: $(wc -w <<< "$wrongs") tries"

# The library needs nothing beside it but what the header says, and fits into a shared object.
needed=$(nm -u "$archive" | awk 'NF == 2 && $2 !~ /^mem(cpy|move|set|cmp)$/ { print $2 }' | sort -u | paste -s -d ' ')
[ -z "$needed" ] || { echo "host: the library needs $needed"; exit 1; }
cc -shared -Wl,--no-undefined -Wl,-z,text -o "$room/shared.so" -Wl,--whole-archive "$archive" -Wl,--no-whole-archive

# What the README prints for C, as it is printed: each of four blocks that begin with an include. The first is a program.
awk -v room="$room" '/^    #include/ && !inside { inside = 1; count++ } !/^(    |$)/ { inside = 0 }
    inside { print substr($0, 5) > (room "/readme" count ".c") }' README.md
for printed in "$room"/readme*.c; do
    sed -i '/^cc /d' "$printed"
    cc -std=c11 "${strict[@]}" -Iinclude -c -o "${printed%.c}.o" "$printed"
done
cc -o "$room/readme" "$room/readme1.o" "$archive"
printf 'done: code 8, address 4104\nx1 is tainted\n' | diff - <("$room/readme")
[ -f "$room/readme4.o" ] && [ ! -f "$room/readme5.o" ]
echo "host: the README's four pieces of C were compiled, and the first was run"

# An installed library, found by pkg-config where that is there.
bash tools/install.sh "$room/prefix" > /dev/null
export PKG_CONFIG_PATH=$room/prefix/lib/pkgconfig
flags="-I$room/prefix/include -L$room/prefix/lib -lmilestarling"
if command -v pkg-config > /dev/null; then
    flags=$(pkg-config --cflags --libs milestarling)
    [ "$(pkg-config --modversion milestarling)" = "$version" ]
fi
documents=$room/prefix/share/doc/milestarling
# shellcheck disable=SC2086
cc -o "$room/installed" "$documents/examples/login.c" $flags
"$room/installed" | diff - tests/host.expected
# What the header names of the repository is installed too.
grep -o '\(docs\|examples\)/[A-Za-z_/]*\.[a-z]*' include/milestarling.h | sort -u | (cd "$documents" && xargs ls) > /dev/null
echo "host: an installed library was linked by ${flags//$room\//}, with an installed example"
