# What `invite store` has to answer, worked out in the shell: a counter, the next id and the pending jobs, and nothing of how they are kept.
# For the scripts that try the program over a real file; they read it with `source`.

# begin SLOTS: an empty store
begin() {
    slots=$1 count=0 next=0 pending=()
}

# apply LINE: does what the line asks; what it is answered is in $answer
apply() {
    local verb first rest k
    read -r verb first rest <<<"$1"
    case $verb in
        raise)
            count=$((count + 1))
            answer="ok $count"
            ;;
        put)
            if [ $((${#pending[@]} + 3)) -gt "$slots" ]; then
                answer='refused Full'
                return
            fi
            pending+=("$next $first $rest")
            answer="ok $next"
            next=$((next + 1))
            ;;
        done)
            answer='refused NoSuchJob'
            for k in "${!pending[@]}"; do
                if [ "${pending[k]%% *}" = "$first" ]; then
                    unset "pending[k]"
                    pending=("${pending[@]}")
                    answer=ok
                    return
                fi
            done
            ;;
        compact | mount) answer=ok ;;
    esac
}

# show: what `list` prints then, in $shown
show() {
    local job
    shown="count $count next $next"
    for job in "${pending[@]}"; do
        shown+=$'\n'"job $job"
    done
}
