# What is otherwise where `planner` stands in a package, with its receipt beside it: there are programs and no sources,
# so nothing is proved or built.

called=planner renew='install the package anew' rebuild=$renew

# Takes the words that need sources out of the table, and ends where one of them is the word that is given.
leave_out_words() {
    local row kept=() left=' --unproved --build '
    [[ $left != *" $1 "* ]] ||
        fail 64 "$1 needs the sources and the Rattle kit, and this is a package: call it in a clone of the repository"
    for ((row = 0; row < ${#own[@]}; row += 2)); do
        [[ $left == *" ${own[row]%% *} "* ]] || kept+=("${own[row]}" "${own[row + 1]}")
    done
    own=("${kept[@]}")
}

stands() {
    [[ -x $program ]]
}

stands_by_sums() {
    return 1
}

build() {
    fail 66 "$program is missing: $renew"
}

# Tells what the receipt says of the package, the commit, the kit, and the sources of the programs.
tell_receipt() {
    local word rest package=
    while read -r word rest; do
        case $word in
        package) package=$rest ;;
        commit) printf 'Gadvresa, commit %s, package %s\n' "$rest" "$package" ;;
        kit) printf 'proved with %s\n' "$rest" ;;
        program) printf '%s: proved for sources of the sum %s\n' "${rest% *}" "${rest#* }" ;;
        esac
    done <"$top/receipt"
}
