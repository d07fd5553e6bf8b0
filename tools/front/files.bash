# Checks the files that the words of a call name, as checks.bash took them, before anything is started.

# Ends where a file that is to be written can't be, or is another file of the call.
check_outputs() {
    local at other
    local -A places=()
    for at in "${writes[@]}"; do
        follow "$at"
        expect_writable "$at"
    done
    for at in "${writes[@]}"; do
        for other in "${reads[@]}" "${writes[@]}"; do
            [[ $at == "$other" ]] || ! is_one_file "${places[$at]}" "${places[$other]-${given[other]}}" ||
                fail 67 "$(called "$at") is the file of $(called "$other"): give it a name of its own"
        done
    done
}

# What a word is called, and the word.
called() {
    printf '%s %s' "${names[$1]}" "${given[$1]@Q}"
}

# Notes the place of a file that is written: its name, or that to which a link leads where nothing is yet.
follow() {
    local place=${given[$1]}
    if [[ -L $place && ! -e $place ]]; then
        command -v readlink >/dev/null || fail 69 'no readlink on the PATH, which follows a link: install coreutils'
        place=$(readlink -f -- "$place" && echo .) || fail 72 "$(called "$1") is a link that leads nowhere: remove it"
        place=${place%$'\n.'}
    fi
    places[$1]=$place
}

# Takes a place apart where nothing is yet: the folder, and the name in it.
split_place() {
    folder=. base=${1##*/}
    [[ $1 != */* ]] || folder=${1%/*}/
}

expect_writable() {
    local place=${places[$1]} folder base
    if [[ -d $place ]]; then
        fail 72 "$(called "$1") is a folder: name a file"
    elif [[ -e $place ]]; then
        [[ -w $place ]] || fail 72 "$(called "$1") may not be written to: take another name, or change its rights"
        return
    fi
    split_place "$place"
    [[ -d $folder ]] || fail 72 "the folder of $(called "$1") is not there: make it, or take another name"
    [[ -n $base && -w $folder && -x $folder ]] ||
        fail 72 "the folder of $(called "$1") may not be written to: take another one, or change its rights"
}

# Whether two names are those of one file, or would be once it is made. A device or a pipe may stand twice.
is_one_file() {
    local folder base one
    if [[ -e $1 || -e $2 ]]; then
        [[ $1 -ef $2 && ! -c $1 && ! -p $1 && ! -S $1 ]]
    else
        split_place "$1"
        one=$folder
        [[ $base == "${2##*/}" ]] && split_place "$2" && [[ $one -ef $folder ]]
    fi
}

# Refuses the first file that can't be read, as the programs do.
check_inputs() {
    local at why
    for at in "${reads[@]}"; do
        why=
        if [[ ! -e ${given[at]} ]]; then
            why='is not there'
        elif [[ -d ${given[at]} ]]; then
            why='is a folder'
        elif [[ ! -r ${given[at]} ]]; then
            why='may not be read'
        fi
        if [[ $why ]]; then
            printf 'planner: %s %s: mend that, or take another name\n' "$(called "$at")" "$why" >&2
            refuse 7 "refused read $at"
        fi
    done
}
