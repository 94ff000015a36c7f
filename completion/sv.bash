# The completion of bash for sv, as `sv help --format bash` prints it.
_sv() {
    local word=${COMP_WORDS[COMP_CWORD]} before=${COMP_WORDS[COMP_CWORD - 1]} names=
    local commands="first policy uncovered audit check replay serve run ctl selftest help version "
    COMPREPLY=()
    case $COMP_CWORD:${COMP_WORDS[1]}:$before:$word in
    1:*) names=$commands;;
    2:help:*) names="$commands config";;
    3:ctl:*) names="status constraints uncovered explain append withdraw stop";;
    *:audit:--format:*) names="text json html keys";;
    *:run:--access-log-format:*) names="combined json";;
    *:help:--format:*) names="man md bash";;
    *:audit:--format:*) return;;
    *:audit:--as:*) return;;
    *:audit:--role:*) return;;
    *:audit:--fail-on:*) return;;
    *:audit:--accept:*) ;;
    *:audit:--lines:*) ;;
    *:audit:--path:*) return;;
    *:audit:--method:*) return;;
    *:audit:--diff:*) ;;
    *:run:--control:*) ;;
    *:run:--journal:*) ;;
    *:run:--access-log:*) ;;
    *:run:--access-log-format:*) return;;
    *:run:--sessions:*) ;;
    *:run:--sessions-every:*) return;;
    *:run:--listen:*) return;;
    *:run:--connections:*) return;;
    *:run:--idle-seconds:*) return;;
    *:run:--held-mebibytes:*) return;;
    *:run:--signal-descriptor:*) return;;
    *:help:--format:*) return;;
    *:first:*:-*) names="";;
    *:policy:*:-*) names="";;
    *:uncovered:*:-*) names="";;
    *:audit:*:-*) names="--secure --format --as --role --fail-on --accept --lines --unknown-files --path --method --diff ";;
    *:check:*:-*) names="";;
    *:replay:*:-*) names="";;
    *:serve:*:-*) names="";;
    *:run:*:-*) names="--control --journal --access-log --access-log-format --sessions --sessions-every --end-all-sessions --listen --same-seed --connections --idle-seconds --held-mebibytes --signal-descriptor ";;
    *:ctl:*:-*) names="";;
    *:selftest:*:-*) names="";;
    *:help:*:-*) names="--format ";;
    *:version:*:-*) names="";;
    esac
    if [ -n "$names" ]; then
        mapfile -t COMPREPLY < <(compgen -W "$names" -- "$word")
    else
        mapfile -t COMPREPLY < <(compgen -f -- "$word")
    fi
}
complete -o filenames -F _sv sv
