# shellcheck shell=bash
# The product of elements as a library for C, for tests/timing/run and bench/product, which source this file from the
# root. It is made of tests/timing/element_calls.rt.in, which is no crate of the repository: it is proved and built in
# a copy, outside of it.

# That library, libelement_calls.a in a folder, of the element crate below another and of what it stands on.
element_library() { # FROM FOLDER
    local crate
    rm -rf "$2"
    mkdir -p "$2/crates/element_calls/src"
    cp tests/timing/element_calls.rt.in "$2/crates/element_calls/src/lib.rt"
    for crate in $(sed -n 's/^binary_field://p' "$1/crates.txt") binary_field; do
        tar -C "$1" --exclude=out -c "crates/$crate" | tar -C "$2" -x && grep "^$crate:" "$1/crates.txt" >>"$2/crates.txt" \
            || return 1
    done
    echo "element_calls staticlib: binary_field" >>"$2/crates.txt"
    (cd "$2/crates/element_calls" && rt lib) && cp "$2/crates/element_calls/out/libelement_calls.a" "$2"
}
