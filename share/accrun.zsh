#compdef accrun
# Completion of accrun for zsh: its options, as its help names them, the words that five of them take, and files.
local -a options
case ${words[CURRENT - 1]} in
--emit) compadd c fortran ;;
--trace) compadd counts full ;;
*)
    case $PREFIX in
    --explain=*) compset -P '*=' && compadd auto always never ;;
    --log=*) compset -P '*=' && compadd text json ;;
    --check=*) compset -P '*=' && compadd warn error all ;;
    --emit=*) compset -P '*=' && compadd c fortran ;;
    --trace=*) compset -P '*=' && compadd counts full ;;
    -*)
        options=(${(f)"$(accrun --help | sed -nE 's/^ +(-., )?(--[a-z-]+).*/\2/p')"})
        compadd -- $options
        ;;
    *) _files ;;
    esac
    ;;
esac
