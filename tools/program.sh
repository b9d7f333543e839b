# What `./sheets`, tools/build and tools/release know in common of the program: the crates that it stands on, and the
# checksum of their sources. It is read by `source`, and wants `top`, the folder of the repository.

# The crates that the program stands on and its own, by name.
program_crates() {
    local line crate
    local -A below=() found=()
    local waiting=(sheets)
    while read -r line; do
        line=${line%%#*}
        if [[ $line == *:* ]]; then crate=${line%%[ :]*} && below[$crate]=${line#*:}; fi
    done <"$top/crates.txt"
    while [ "${#waiting[@]}" -gt 0 ]; do
        crate=${waiting[-1]}
        unset 'waiting[-1]'
        # (what crates.txt has no line for is a library of the toolchain)
        if [ -n "${found[$crate]-}" ] || [ -z "${below[$crate]+listed}" ]; then continue; fi
        found[$crate]=yes
        for line in ${below[$crate]}; do waiting+=("$line"); done
    done
    printf '%s\n' "${!found[@]}" | LC_ALL=C sort
}

# The lines of crates.txt of the crates that are named, without comments, by name.
lines_of() {
    local crate
    for crate in "$@"; do grep -E "^$crate( |:)" "$top/crates.txt" | sed 's/ *#.*//'; done
}

# The checksum of all that the program is built from: the files of its crates, their lines of crates.txt, and HANDLES.
sources() {
    local crates crate part folders=()
    crates=$(program_crates)
    for crate in $crates; do
        for part in src specs proofs; do
            if [ -d "$top/crates/$crate/$part" ]; then folders+=("crates/$crate/$part"); fi
        done
    done
    # shellcheck disable=SC2086
    {
        lines_of $crates
        cd "$top" && sha256sum HANDLES &&
            find "${folders[@]}" -type f -print0 | LC_ALL=C sort -z | xargs -0 sha256sum
    } | sha256sum | cut -d ' ' -f 1
}
