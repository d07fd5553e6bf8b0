# What `planner` does for words of its own: those of the table `own` in words.bash.

# Runs a call whose first word is one of them, and ends.
run_own() {
    case $1 in
    --help)
        (($# == 1)) || fail 64 "$1 takes no word more: call it alone"
        use telling.bash
        say_out "$(help)"
        ;;
    --version)
        (($# == 1)) || fail 64 "$1 takes no word more: call it alone"
        use telling.bash
        say_out "$(version)"
        ;;
    --build) build_only "${@:2}" ;;
    --unproved) run_unproved "${@:2}" ;;
    explain | view | plan)
        use_python "$1" "$1"
        run_python "$@"
        ;;
    esac
}

# Ends with what is due on standard output.
say_out() {
    printf '%s\n' "$1" 2>/dev/null || fail 74 'standard output takes nothing: see where it goes'
    exit 0
}

# Builds a program where needed, for any processor, and says where it is.
build_only() {
    local known=" ${programs[*]} " stamp
    program=${1-${programs[0]}}
    [[ $program && $known == *" $program "* ]] ||
        fail 64 "--build takes one of ${programs[*]}, or no word more: ${1@Q} is none"
    (($# < 2)) || fail 64 '--build takes one word more at most: call it for one program'
    program=$top/out/$program
    # (a third line of a stamp names a level of processors that not all have)
    { stands && mapfile -t stamp <"$program.stamp" && [[ -z ${stamp[2]-} ]]; } || build
    say_out "$program"
}

# Runs a command by `rt try`, which proves nothing. `rt` runs programs in a folder of its own, so they get whole paths.
run_unproved() {
    local at
    (($# > 0)) || fail 64 '--unproved takes a command and its words: see --help'
    ! is_own "$1" || fail 64 "--unproved takes a command of a program, and ${1@Q} is a word of this script: see --help"
    use files.bash
    use telling.bash
    check_words "$@"
    check_inputs
    use_python unproved --unproved
    command -v rt >/dev/null || fail 69 'no rt on the PATH, which runs the program: install the Rattle kit'
    tell_other_kit
    for at in "${reads[@]}" "${writes[@]}"; do
        [[ ${given[at]} == /* ]] || given[at]=$PWD/${given[at]}
    done
    exec python3 -I "$top/tools/unproved" "$top/crates/${program##*/}" "${given[@]:1}"
    fail 69 'python3 could not be started: install Python 3'
}
