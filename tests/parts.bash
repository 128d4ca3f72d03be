# Runs scripts as parts of the one that reads this file, tells how long each takes, and adds up their last lines, each `N passed, M failed`.

passed=0
failed=0

# Adds up the last line of what a part printed.
add() {
    local log=$1 status=$2 last
    last=$(tail -n 1 -- "$log")
    if [[ $last =~ ^([0-9]+)\ passed,\ ([0-9]+)\ failed$ ]]; then
        passed=$((passed + BASH_REMATCH[1]))
        failed=$((failed + BASH_REMATCH[2]))
        if [ "$status" -eq 0 ] || [ "${BASH_REMATCH[2]}" -gt 0 ]; then
            return
        fi
    fi
    echo "'${*:3}' did not end well (exit status $status)" >&2
    failed=$((failed + 1))
}

# Runs a part.
part() {
    local log status begun=$SECONDS
    echo "$*:"
    log=$(mktemp) || exit 1
    "$@" 2>&1 | tee -- "$log"
    status=${PIPESTATUS[0]}
    add "$log" "$status" "$@"
    echo "$* took $((SECONDS - begun)) s"
    rm -f -- "$log"
}

# The parts that run side by side: the log, the process and the words of each.
logs=()
processes=()
names=()

# Runs a part beside the others.
beside() {
    local log begun=$SECONDS
    log=$(mktemp) || exit 1
    {
        ("$@") >"$log" 2>&1
        status=$?
        echo "$((SECONDS - begun))" >"$log.seconds"
        exit "$status"
    } &
    processes+=("$!")
    logs+=("$log")
    names+=("$*")
}

# Waits for the parts that run side by side, and shows each as it was begun.
all_beside() {
    local at status
    for at in "${!processes[@]}"; do
        wait "${processes[at]}"
        status=$?
        echo "${names[at]}:"
        cat -- "${logs[at]}"
        add "${logs[at]}" "$status" "${names[at]}"
        echo "${names[at]} took $(cat -- "${logs[at]}.seconds") s"
        rm -f -- "${logs[at]}" "${logs[at]}.seconds"
    done
}
