# Made by tools/manual.py from the helps of the program. To use it: source docs/fints.bash
_fints() {
    local word=${COMP_WORDS[COMP_CWORD]} before=${COMP_WORDS[COMP_CWORD - 1]} words files= numbers= command=
    # bash cuts --params=FILE into three words
    if [ "$word" = "=" ]; then
        word=
    elif [ "$before" = "=" ]; then
        before=${COMP_WORDS[COMP_CWORD - 2]}
    fi
    for command in "${COMP_WORDS[@]:1:COMP_CWORD - 1}" ""; do
        [[ $command == -* ]] || break
    done
    case $command in
    show) words="--hints --params --message --help" files="--params --message" numbers="" ;;
    judge) words="--hints --params --orders --before --answer --message --help" files="--params --orders --before --answer --message" numbers="" ;;
    audit) words="--hints --params --orders --dialogue --help" files="--params --orders --dialogue" numbers="" ;;
    record) words="--dialogue --hints --help" files="--dialogue" numbers="" ;;
    draft) words="--hints --orders --dialogue --part --print-case --case --help" files="--orders --dialogue" numbers="--part" ;;
    check) words="--hints --params --orders --script --help" files="--params --orders --script" numbers="" ;;
    explain) words="--hints --params --orders --script --finding --help" files="--params --orders --script" numbers="--finding" ;;
    certify) words="--hints --params --orders --script --help" files="--params --orders --script" numbers="" ;;
    verify) words="--hints --params --orders --script --cert --help" files="--params --orders --script --cert" numbers="" ;;
    run) words="--hints --orders --script --case --number --message --help" files="--orders --script --case" numbers="--number --message" ;;
    draw) words="--hints --params --orders --script --help" files="--params --orders --script" numbers="" ;;
    orders) words="--hints --help" files="" numbers="" ;;
    *) words="show judge audit record draft check explain certify verify run draw orders help --hints --help --version" ;;
    esac
    case " $files " in
    *" $before "*)
        compopt -o filenames 2> /dev/null
        mapfile -t COMPREPLY < <(compgen -f -- "$word")
        return
        ;;
    esac
    case " $numbers " in
    *" $before "*)
        COMPREPLY=()
        return
        ;;
    esac
    mapfile -t COMPREPLY < <(compgen -W "$words" -- "$word")
}
complete -F _fints fints
