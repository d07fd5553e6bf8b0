# What `planner` says to people: its table, what is wrong with words, and which version this is.

show_row() {
    printf '  %-56s %s\n' "${1//>/}" "$2"
}

command_rows() {
    local row
    for ((row = 0; row < ${#commands[@]}; row += 3)); do
        show_row "${commands[row + 1]}" "${commands[row + 2]}"
    done
}

help() {
    local row
    echo "usage: $called WORDS, with the words of one line:"
    command_rows
    for ((row = 0; row < ${#own[@]}; row += 2)); do
        show_row "${own[row]}" "${own[row + 1]}"
    done
    for ((row = 0; row < ${#options[@]}; row += 3)); do
        printf '%s %s\n' "${options[row]}" "${options[row + 2]}"
    done
    echo 'statuses:'
    for ((row = 0; row < ${#statuses[@]}; row += 2)); do
        printf '  %-5s  %s\n' "${statuses[row]}" "${statuses[row + 1]}"
    done
}

# Refuses the words of a command that was found, for what is `wrong`.
refuse_words() {
    {
        printf 'planner: %s\n' "$wrong"
        usage "${form[*]}" "$does"
    } >&2
    refuse 2 'refused words'
}

usage() {
    printf 'usage: %s %s\n  %s\n' "$called" "${1//>/}" "$2"
}

# Refuses words of which the first is no command.
refuse_command() {
    local near
    if (($# == 0)); then
        echo 'planner: a command is missing'
        usage_of_all
    elif near=$(nearest "$1"); then
        printf 'planner: %s is no command; is %s meant?\n' "${1@Q}" "$near"
        usage_of "$near"
    else
        printf 'planner: %s is no command\n' "${1@Q}"
        usage_of_all
    fi >&2
    refuse 2 'refused words'
}

usage_of_all() {
    echo "usage: $called WORDS, with the words of one line; $called --help tells more:"
    command_rows
}

# The usage of a command, or of a word of this script's own.
usage_of() {
    local row
    if find_command "$1"; then
        usage "${form[*]}" "$does"
        return
    fi
    for ((row = 0; row < ${#own[@]}; row += 2)); do
        [[ ${own[row]%% *} != "$1" ]] || usage "${own[row]}" "${own[row + 1]}"
    done
}

# The command, or word of this script's own, that is nearest to a word, where no more than a third of it is changed.
nearest() {
    local row name far word=${1#--} least=99 found=
    local -a known=()
    for ((row = 0; row < ${#commands[@]}; row += 3)); do
        known+=("${commands[row + 1]%% *}")
    done
    for ((row = 0; row < ${#own[@]}; row += 2)); do
        known+=("${own[row]%% *}")
    done
    for name in "${known[@]}"; do
        far=$(distance "${word:0:20}" "${name#--}")
        if ((3 * far < ${#name} && far < least)); then
            least=$far found=$name
        fi
    done
    [[ $found ]] && printf '%s' "$found"
}

# How many letters are changed, left out, added, or exchanged with the next one, between two words.
distance() {
    local one=${1,,} other=$2 i j least
    local -a before=() last=() now
    for ((j = 0; j <= ${#other}; j++)); do
        last[j]=$j
    done
    for ((i = 1; i <= ${#one}; i++)); do
        now=("$i")
        for ((j = 1; j <= ${#other}; j++)); do
            least=$((last[j - 1] + 1))
            [[ ${one:i-1:1} != "${other:j-1:1}" ]] || least=$((last[j - 1]))
            ((least <= last[j] + 1)) || least=$((last[j] + 1))
            ((least <= now[j - 1] + 1)) || least=$((now[j - 1] + 1))
            if ((i > 1 && j > 1)) && [[ ${one:i-2:2} == "${other:j-1:1}${other:j-2:1}" ]]; then
                ((least <= before[j - 2] + 1)) || least=$((before[j - 2] + 1))
            fi
            now[j]=$least
        done
        before=("${last[@]}") last=("${now[@]}")
    done
    printf '%s' "${last[-1]}"
}

# Tells the commit, the kit that the repository is proved with, the kit of `rt` here, and which programs stand.
version() {
    local commit= name stamp
    if [[ -f $top/receipt ]]; then
        tell_receipt
        return
    fi
    [[ ! -e $top/.git ]] || commit=$(
        GIT_OPTIONAL_LOCKS=0 git --git-dir="$top/.git" --work-tree="$top" describe --always --dirty 2>/dev/null
    )
    printf 'Gadvresa, commit %s\nproved with %s\nrt here: %s\n' "${commit:-unknown}" "$(kit_due)" "$(kit_here)"
    for name in "${programs[@]}"; do
        program=$top/out/$name
        if stands || stands_by_sums; then
            mapfile -t stamp <"$program.stamp"
            printf '%s: proved for these sources, with %s%s\n' "$name" "${stamp[0]}" "${stamp[2]+, for ${stamp[2]}}"
        else
            printf '%s: not proved for these sources\n' "$name"
        fi
    done
}

# The kit that the repository is proved with.
kit_due() {
    local kit=
    [[ -f $top/KIT ]] && read -r kit <"$top/KIT"
    printf '%s' "${kit:-an unknown kit}"
}

# The kit of the `rt` on the PATH, by its own line.
kit_here() {
    local kit
    if ! command -v rt >/dev/null; then
        printf 'none on the PATH'
    elif kit=$(rt version 2>/dev/null) && [[ $kit ]]; then
        printf '%s' "${kit%%$'\n'*}"
    else
        printf 'one that does not tell its name'
    fi
}

# Tells where `rt` is of another kit than the one that the repository is proved with.
tell_other_kit() {
    local here due
    here=$(kit_here) due=$(kit_due)
    [[ $here == "$due" ]] ||
        printf 'planner: rt here is %s, and the repository is proved with %s: it may refuse what that takes\n' \
            "$here" "$due" >&2
}
