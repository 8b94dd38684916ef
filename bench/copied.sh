# Read by a script that proves and builds a program of its own: copies crates, with the work that checks kept, and their lines of
# crates.txt to a folder, where the program is put beside them. The script says where the repository is (top).
#
# usage: . bench/copied.sh; copied FOLDER CRATE ..
copied() {
    local folder=$1 crate
    shift
    mkdir -p "$folder/crates" "$folder/.git"
    for crate in "$@"; do
        cp -r "$top/crates/$crate" "$folder/crates/"
        grep "^$crate:" "$top/crates.txt" >> "$folder/crates.txt"
    done
    cp "$top/HANDLES" "$folder/"
}
