# Runs a program and says behind it, for people, what its report comes to: the cost, and the gap in percent.

# What ends a program is passed on to it.
signals=(HUP INT QUIT TERM USR1 USR2)

# Runs the program on the words, passes on what it says as it comes, and ends as it ends.
run_and_sum_up() {
    local line said=() child= pending= status name is_lost=
    for name in "${signals[@]}"; do
        trap "pass_on $name" "$name"
    done
    exec {from}< <(
        trap - "${signals[@]}"
        exec "$program" "$@"
        exit 127
    )
    child=$!
    [[ -z $pending ]] || pass_on "$pending"
    trap '' PIPE
    while IFS= read -r -u "$from" line; do
        said+=("$line")
        printf '%s\n' "$line" 2>/dev/null || { is_lost=1 && break; }
    done
    # (where the program was ended within a line)
    [[ $is_lost || -z $line ]] || printf '%s' "$line" 2>/dev/null || is_lost=1
    exec {from}<&-
    wait_for "$child"
    trap - "${signals[@]}"
    ((status != 126 && status != 127)) || fail 71 "$unstarted"
    if ((status > 128)); then
        kill -s "$((status - 128))" $$
    elif [[ $is_lost ]]; then
        status=8
    elif ((status == 0)); then
        sum_up "$1" >&2
    fi
    exit "$status"
}

# Passes a signal on to the program, or keeps it until that has begun.
pass_on() {
    pending=$1
    [[ -z $child ]] || kill -s "$1" "$child" 2>/dev/null
}

# Waits for a process, also where a signal comes meanwhile, and leaves its `status`.
wait_for() {
    while :; do
        wait "$1" 2>/dev/null
        status=$?
        kill -0 "$1" 2>/dev/null || return
    done
}

# Says what the lines that were `said` come to.
sum_up() {
    local line
    local -A value=()
    for line in "${said[@]}"; do
        value[${line%% *}]=${line#* }
    done
    case $1 in
    repair) sum_up_changes ;;
    solve) sum_up_costs "$(periods_of "${value[score]}" "${value[cost]%% *}")" ;;
    check) sum_up_costs "$(periods_of "${value[bound]}" "${value[bound-cost]-}")" ;;
    bound) sum_up_scores ;;
    improve) sum_up_improvement "$(periods_of "${value[score]}" "${value[cost]%% *}")" ;;
    esac
}

sum_up_changes() {
    local gap
    gap=$(in_percent "$((value[changed] - value[least]))" "${value[changed]}")
    printf 'planner: %s starts are changed; no plan that keeps the rules changes fewer than %s: a gap of %s\n' \
        "${value[changed]}" "${value[least]}" "$gap"
}

# The same of scores, by the number of periods, if it is known; nothing is said where one of them is below 0.
sum_up_costs() {
    local periods=$1 gap
    [[ ${value[bound]}${value[score]-} != *-* ]] || return
    if [[ ${value[bound]} == none ]]; then
        echo 'planner: no plan keeps the rules'
    elif [[ $periods && ${value[score]-} ]] && gap=$(in_percent "${value[gap]}" "${value[score]}"); then
        printf 'planner: cost %s; no plan that keeps the rules costs less than %s: a gap of %s\n' \
            "$(as_cost "${value[score]}" "$periods")" "$(as_cost "${value[bound]}" "$periods")" "$gap"
    elif [[ $periods && ! ${value[score]-} ]]; then
        printf 'planner: no plan that keeps the rules costs less than %s\n' "$(as_cost "${value[bound]}" "$periods")"
    fi
}

# The same where no line tells a cost, from which the number of periods would be known.
sum_up_scores() {
    local gap bound
    [[ ${value[bound]}${value[score]-} != *-* ]] || return
    bound=$(as_cost "${value[bound]}" 1)
    if [[ ${value[score]-} ]] && gap=$(in_percent "${value[gap]}" "${value[score]}"); then
        printf 'planner: score %s * 10^18; no plan that keeps the rules scores less than %s * 10^18: a gap of %s\n' \
            "$(as_cost "${value[score]}" 1)" "$bound" "$gap"
    elif [[ ! ${value[score]-} ]]; then
        printf 'planner: no plan that keeps the rules scores less than %s * 10^18\n' "$bound"
    fi
}

# The cost of a plan that was made better, and what it was before, by the number of periods, if it is known; nothing is
# said where one of them is below 0.
sum_up_improvement() {
    local periods=$1
    [[ $periods && ${value[score]}${value[before]} != *-* ]] || return
    if [[ ${value[before]} == none ]]; then
        printf 'planner: cost %s\n' "$(as_cost "${value[score]}" "$periods")"
    else
        printf 'planner: cost %s; before it was %s\n' "$(as_cost "${value[score]}" "$periods")" \
            "$(as_cost "${value[before]}" "$periods")"
    fi
}

# Cuts off as many digits of two numbers that the longer one has 13; `is_cut` says whether any was.
shorten() {
    local more=$((${#one} > ${#other} ? ${#one} - 13 : ${#other} - 13))
    is_cut=0
    if ((more > 0)); then
        is_cut=1
        one=0${one:0:${#one} > more ? ${#one} - more : 0} other=0${other:0:${#other} > more ? ${#other} - more : 0}
    fi
    one=$((10#$one)) other=$((10#$other))
}

# The part that one number is of another, in percent, rounded up; neither is below 0, and the other one is above.
in_percent() {
    local one=$1 other=$2 is_cut part
    [[ $one$other != *-* ]] || return 1
    [[ $one != 0 ]] || { echo '0 %' && return; }
    shorten
    ((other > 0)) || return 1
    part=$((((one + is_cut) * 10000 + other - 1) / other))
    printf '%d.%02d %%' "$((part / 100))" "$((part % 100))"
}

# How many periods there are, by a score and the cost that it stands for; nothing where these are too small to say.
periods_of() {
    local one=${1%??????} other=${2/./} is_cut
    [[ $1$2 != *-* && $2 ]] || return
    shorten
    ((other < 10000)) || printf '%s' "$(((2 * one + other) / (2 * other)))"
}

# A score as a cost, cut off at six decimals.
as_cost() {
    local digits=$1 rest=0 cost= at
    while ((${#digits} < 24 || ${#digits} % 12)); do
        digits=0$digits
    done
    for ((at = 0; at < ${#digits} - 12; at += 12)); do
        rest=$((rest * 10 ** 12 + 10#${digits:at:12}))
        cost+=$(printf '%012d' "$((rest / $2))")
        rest=$((rest % $2))
    done
    printf '%d.%s' "$((10#${cost%??????}))" "${cost: -6}"
}
