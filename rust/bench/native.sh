#!/bin/sh
# native.sh: compiles functions of the proved crates for the bench to link: rust/target/native/libluffgravel_native.a, and
# libluffgravel_cells.a, which has the calls on packets of the whole cell. They are two, so that in each a call is made
# at one place only, as in the shift program: the compiler then sets it in where it is made. A call that is made at
# several places is a function of its own, and copies. The two crates of rattle/ only give the functions plain names that
# Rust can call; the kit proves them too, in a copy of the repository and over what it kept of the crates below, and
# builds nothing that is not proved.
set -eu
here=$(cd "$(dirname "$0")" && pwd -P)
repo=$(cd "$here/../.." && pwd -P)
out=$here/../target/native
mkdir -p "$out"
copy=$(mktemp -d)
trap 'rm -rf "$copy"' EXIT
tar -C "$repo" --exclude='crates/*/out' -cf - crates crates.txt | tar -C "$copy" -xf -

# The Rattle text is in files of rattle/. They end in .rt.in and not in .rt: rt refuses a file of Rattle that no crate of
# crates.txt has. A line that begins with @ is read as more:
#   @loaded, @turns           the file of this name, which both crates have
#   @cell-turns               turns.rt.in with `lists` read as `cell`: by the calls on the whole cell
#   @ten fn NAME(..) = CALL   the function that makes the call ten times from one state: whether all answered true
# An exported function takes numbers, bools and slices, and no enum, nor a struct that holds one. So a cell is made and
# used inside. A loop would need a proof of its own, and ten calls in a row need none.
ten() {
    call=${1#* = }
    printf '// Ten times %s.\n%s -> bool {\n' "${call%%(*}" "${1%% = *}"
    for name in a b c d e f g h i j; do
        printf '    let %s = %s;\n' $name "$call"
    done
    printf '    a & b & c & d & e & f & g & h & i & j\n}\n'
}
# The whole text of a crate.
text() {
    while IFS= read -r line; do
        case $line in
            @loaded) cat "$here/rattle/loaded.rt.in" ;;
            @turns) cat "$here/rattle/turns.rt.in" ;;
            @cell-turns) sed 's/lists/cell/g; s/Lists/Cell/g' "$here/rattle/turns.rt.in" ;;
            '@ten '*) ten "${line#@ten }" ;;
            *) printf '%s\n' "$line" ;;
        esac
    done < "$here/rattle/$1.rt.in"
}
# Builds one of the two, by its text's name and the crates that it stands on: its archive, and what the prover says.
built() {
    crate=luffgravel_$1
    mkdir -p "$copy/crates/$crate/src"
    text "$1" > "$copy/crates/$crate/src/lib.rt"
    echo "$crate staticlib: $2" >> "$copy/crates.txt"
    (cd "$copy/crates/$crate" && rt lib) > "$copy/log" 2>&1 || { grep -v '^library' "$copy/log" >&2; exit 1; }
    grep '^logic=' "$copy/log" | tail -n 1
    cp "$copy/crates/$crate/out/lib$crate.a" "$out"
}
below='numbers channels units configuration cards_request schedule_entries schedule_list packets lists cell_selection cell'
built native "$below configuration_listing schedule_deck"
built cells "$below"
