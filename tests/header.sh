#!/bin/sh
# Compiles the header alone, as C99 and as C++, without a warning, and its numbers with it (c/header.c); then compares the
# types of its functions with those of the source, as the C interface passes them: a slice as pointer and length, an array
# as pointer.
here=$(cd "$(dirname "$0")" && pwd)
header=$here/../include/nardiplex.h
source=$here/../crates/nardiplex_c/src/lib.rt
strict="-pedantic -Wall -Wextra -Werror -fsyntax-only -I$here/../include"
# shellcheck disable=SC2086
cc -std=c99 $strict -x c "$here/c/header.c" && c++ -std=c++11 $strict -x c++ "$here/c/header.c" || exit 1
echo "the header as C99 and as C++: no warning"

# The header's functions, one a line, without the names of their parameters.
declared() {
    tr '\n' ' ' < "$header" | sed 's,/\*[^*]*\**\([^/*][^*]*\*\**\)*/,,g' | grep -o 'void nardiplex_[a-z_]*([^)]*)' |
        sed 's/  */ /g; s/\([a-z0-9_]*\)\([,)]\)/\2/g; s/ \([,)]\)/\1/g' | sort
}

# The functions that the source exports, as C has them.
exported() {
    sed 's,//.*,,' "$source" | tr '\n' ' ' | grep -o 'pub extern "C" fn [a-z_]*([^)]*)' | LC_ALL=C awk '
        function c(type) { return type == "usize" ? "size_t" : type ~ /^u(8|32|64)$/ ? "uint" substr(type, 2) "_t" : "?" type }
        {
            sub(/pub extern "C" fn /, "")
            name = substr($0, 1, index($0, "(") - 1)
            list = substr($0, index($0, "(") + 1)
            sub(/[ ,]*\)$/, "", list)
            n = split(list, parameter, /, */)
            line = ""
            for (i = 1; i <= n; i++) {
                type = parameter[i]
                sub(/^[^:]*: */, "", type)
                constant = type ~ /^&mut / ? "" : "const "
                if (type ~ /^&/) {
                    slice = type !~ /;/
                    gsub(/&|mut |\[|\]|;.*/, "", type)
                    type = constant c(type) " *" (slice ? ", size_t" : "")
                } else type = c(type)
                line = line (i > 1 ? ", " : "") type
            }
            print "void " name "(" line ")"
        }' | sort
}

[ "$(declared)" = "$(exported)" ] && [ -n "$(exported)" ] || {
    echo "the header and the source differ; declared:"
    declared
    echo "exported:"
    exported
    exit 1
}
echo "the header has the functions of the source, type for type"
