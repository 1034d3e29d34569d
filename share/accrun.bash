# Completion of accrun for bash: its options, as its help names them, the words that five of them take, and files.
_accrun() {
    local word=${COMP_WORDS[COMP_CWORD]} before=${COMP_WORDS[COMP_CWORD - 1]} words
    # An equals sign is a word of its own here.
    if [[ $word == = ]]; then
        word=
        before+='='
    elif [[ $before == = ]]; then
        before=${COMP_WORDS[COMP_CWORD - 2]}=
    fi
    case $before in
    --explain=) words='auto always never' ;;
    --log=) words='text json' ;;
    --check=) words='warn error all' ;;
    --emit | --emit=) words='c fortran' ;;
    --trace | --trace=) words='counts full' ;;
    *)
        if [[ $word != -* ]]; then return; fi
        words=$(accrun --help | sed -nE 's/^ +(-., )?(--[a-z-]+).*/\2/p')
        ;;
    esac
    mapfile -t COMPREPLY < <(compgen -W "$words" -- "$word")
}
complete -o default -F _accrun accrun
