# Checks the words of a call by the tables of words.bash.

# Finds the row of a command, which gives its `program`, its `form` and what it `does`.
find_command() {
    local row
    for ((row = 0; row < ${#commands[@]}; row += 3)); do
        form=(${commands[row + 1]})
        if [[ $1 == "${form[0]}" ]]; then
            program=${commands[row]} does=${commands[row + 2]}
            return
        fi
    done
    form=()
    return 1
}

# Whether a word is one of this script's own.
is_own() {
    local row
    for ((row = 0; row < ${#own[@]}; row += 2)); do
        [[ ${own[row]%% *} != "$1" ]] || return 0
    done
    return 1
}

# Takes the words of a call of the command that was found. Then `given` has them from 1 on, as programs count them,
# `names` what each one is called, and `reads` and `writes` the numbers of those that name files. Where the words aren't
# in the grammar, `wrong` says why.
take_words() {
    local part word at=2
    given=("" "$@") names=("" "$1") reads=() writes=() wrong=
    for part in "${form[@]:1}"; do
        word=${given[at]-}
        if [[ $part == '['* ]]; then
            ((at <= $#)) && is_option "$part" "$word" || continue
        elif ((at > $#)); then
            wrong="${part#>} is missing"
        elif [[ ${forms[$part]-} ]]; then
            [[ $word =~ ^(${forms[$part]})$ ]] || wrong="$part is ${word@Q}, and not ${ranges[$part]}"
        elif [[ -z $word ]]; then
            wrong="${part#>} is an empty word"
        elif [[ $part == '>'* ]]; then
            writes+=("$at")
        elif [[ $part != *'|-' || $word != - ]]; then
            reads+=("$at")
        fi
        [[ -z $wrong ]] || return 1
        part=${part#>}
        names+=("${part%|-}")
        at=$((at + 1))
    done
    if ((at <= $#)); then
        word=${given[at]}
        wrong="${word@Q} is a word too many"
        [[ $word != slack=* || ${form[-1]} != '['* ]] ||
            wrong="${word@Q} is no slack: write it from 0 to 0.001 with at most 12 decimals, as slack=0.00001"
        [[ $word != part=* || ${form[-1]} != '[part=K/N]' ]] ||
            wrong="${word@Q} is no part: write it with K below N, which is at most 1000000, as part=0/4"
        return 1
    fi
    fit_together
}

# Takes the program that the certificate of a call is for, where its command has more than one. What can be read only
# once, as a pipe, is not looked into.
choose_program() {
    local at
    [[ ${refining[${given[1]}]-} ]] || return 0
    for at in "${reads[@]}"; do
        [[ ${names[at]} != CERTIFICATE ]] || ! begins_with "$refined" "${given[at]}" || program=${refining[${given[1]}]}
    done
}

# Whether a file can be read, and begins with a text of one line.
begins_with() {
    local head=
    [[ -f $2 && -r $2 ]] && IFS= read -r -d '' -n "${#1}" head <"$2"
    [[ $head == "$1" ]]
} 2>/dev/null

# Whether a word has the form of an option in brackets.
is_option() {
    local row
    for ((row = 0; row < ${#options[@]}; row += 3)); do
        [[ $1 == "[${options[row]}]" && $2 =~ ^${options[row + 1]}$ ]] && return
    done
    return 1
}

# Whether words that have their forms each fit together too.
fit_together() {
    local at
    for at in "${!names[@]}"; do
        case ${names[at]} in
        TO) ((given[at - 1] <= given[at])) || wrong="FROM, ${given[at - 1]}, is above TO, ${given[at]}" ;;
        SEED) is_below_2_64 "${given[at]}" || wrong="SEED is '${given[at]}', and not ${ranges[SEED]}" ;;
        esac
    done
    [[ ${given[1]} != bound ]] || fit_part "${given[-1]}"
    ((${#writes[@]} == 0)) || differ "${reads[@]}" "${writes[@]}"
    [[ -z $wrong ]]
}

# Finds whether a word that says a part names one that there is.
fit_part() {
    [[ ! $1 =~ ^part=([0-9]+)/([0-9]+)$ ]] || ((BASH_REMATCH[1] < BASH_REMATCH[2])) ||
        wrong="K, ${BASH_REMATCH[1]}, is not below N, ${BASH_REMATCH[2]}"
}

# Finds whether the words of some numbers differ from each other.
differ() {
    local other
    while (($# > 1)); do
        for other in "${@:2}"; do
            [[ ${given[$1]} != "${given[other]}" ]] ||
                wrong="${names[$1]} and ${names[other]} are both ${given[other]@Q}, and must differ"
        done
        shift
    done
}

# Whether a number of at most 20 digits is below 2^64.
is_below_2_64() {
    ((${#1} < 20)) || [[ ! $1 > 18446744073709551615 ]]
}
