# Completion of pulse_rw's words for bash.
_pulse_rw() {
    local word=${COMP_WORDS[COMP_CWORD]} before=${COMP_WORDS[COMP_CWORD - 1]}
    COMPREPLY=()
    if [ "$COMP_CWORD" -eq 1 ]; then
        mapfile -t COMPREPLY < <(compgen -W "replay summary convert gen serve ctl --help --version" -- "$word")
        return
    fi
    case "${COMP_WORDS[1]}:$before" in
    replay:replay) mapfile -t COMPREPLY < <(compgen -W "--raw --monitor --samples --ramp" -- "$word") ;;
    serve:--header | serve:--socket) mapfile -t COMPREPLY < <(compgen -f -- "$word") ;;
    serve:--out) mapfile -t COMPREPLY < <(compgen -d -- "$word") ;;
    serve:--history) mapfile -t COMPREPLY < <(compgen -W "none memory" -- "$word") ;;
    serve:--accept | serve:--source) ;;
    serve:*) mapfile -t COMPREPLY < <(compgen -W "--header --socket --out --accept --history --source --tape" -- "$word") ;;
    ctl:ctl) mapfile -t COMPREPLY < <(compgen -W "--socket" -- "$word") ;;
    ctl:--socket) mapfile -t COMPREPLY < <(compgen -f -- "$word") ;;
    ctl:*)
        if [ "$COMP_CWORD" -eq 4 ]; then
            mapfile -t COMPREPLY < <(compgen -W "list volume mute sink-volume move kill" -- "$word")
        elif [ "$COMP_CWORD:${COMP_WORDS[4]}" = 6:mute ]; then
            mapfile -t COMPREPLY < <(compgen -W "on off" -- "$word")
        fi
        ;;
    esac
}
complete -o filenames -F _pulse_rw pulse_rw
