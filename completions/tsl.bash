# Completion for bash of the words of tsl, tslx and solve.
_tsl() {
    local word=${COMP_WORDS[COMP_CWORD]} program=${COMP_WORDS[0]##*/} command=${COMP_WORDS[1]} offered=
    if [ "$program" = solve ]; then
        offered='--budget --log'
    elif [ "$COMP_CWORD" -eq 1 ]; then
        offered='synth check run prove recheck gen circuit automaton accepts'
        [ "$program" = tslx ] && offered="$offered search explain trace names tables assumed core simplify split code play wave vcd draw tlsf back --help --version"
    else
        case $command in
        synth) offered='--states --bound --env-states --env-bound --depth --rounds --budget' ;;
        check) offered='--bound' ;;
        prove) offered='--states --bound --budget' ;;
        search) offered='--most --jobs' ;;
        gen) offered='1 2 3 4 5' ;;
        circuit) offered='--bound' ;;
        trace) offered='--values' ;;
        tables) offered='--domain --words' ;;
        core) offered='--states --env-states --env-bound --depth --rounds --budget' ;;
        simplify) offered='--bound --most' ;;
        split) offered='--most --jobs' ;;
        code) offered='--name --bound' ;;
        play) offered='--title' ;;
        wave) offered='--title' ;;
        vcd) offered='--title' ;;
        draw) offered='--title --output' ;;
        tlsf) offered='--title' ;;
        back) offered='--windows' ;;
        esac
        [ "$program" = tslx ] && [ "$command $COMP_CWORD" = 'code 2' ] && offered='c python javascript rust verilog'
        [ "$program" = tslx ] && offered="$offered --help"
        [ "$command ${COMP_WORDS[COMP_CWORD - 1]}" = 'synth --bound' ] && offered=$(echo {0..15} full)
    fi
    COMPREPLY=($(compgen -W "$offered" -- "$word"))
    if [ "$program" = tslx ] && [ "$COMP_CWORD" -gt 1 ]; then COMPREPLY+=($(compgen -f -- "$word")); fi
}
complete -F _tsl tsl tsl-unproved tslx
complete -F _tsl solve
