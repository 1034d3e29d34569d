# Completion of accrun for fish: its options, as its help names them, the words that five of them take, and files.
for option in (accrun --help | string replace -rf '^ +(?:-., )?--([a-z-]+).*' '$1')
    switch $option
        case emit
            complete -c accrun -l $option -x -a 'c fortran'
        case trace
            complete -c accrun -l $option -x -a 'counts full'
        case explain
            complete -c accrun -l $option -a 'auto always never'
        case log
            complete -c accrun -l $option -a 'text json'
        case check
            complete -c accrun -l $option -a 'warn error all'
        case '*'
            complete -c accrun -l $option
    end
end
