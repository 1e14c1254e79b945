# Read by the scripts beside it: a folder of its own for the crates that a proved program of theirs stands on, each with its line of crates.txt.

# Makes the folder of a repository in $work, removed at the end, with the crates that are named, of the repository $top.
gather() {
    work=$(mktemp -d)
    trap 'rm -rf "$work"' EXIT
    mkdir "$work/crates"
    for name in "$@"; do
        mkdir "$work/crates/$name"
        for part in src specs proofs; do
            if [ -d "$top/crates/$name/$part" ]; then
                cp -R "$top/crates/$name/$part" "$work/crates/$name/"
            fi
        done
        grep "^$name:" "$top/crates.txt" >>"$work/crates.txt"
    done
}
