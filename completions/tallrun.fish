# Completion of tallrun's words for fish: its two options, and names of scripts.
complete -c tallrun -f
complete -c tallrun -l workers -x -a '1 2 4 8 16 32 64' -d 'Number of workers, 1 to 64'
complete -c tallrun -l demo -x -d 'Run the demo over so many rows, 1 to 1000000'
complete -c tallrun -n 'not __fish_contains_opt demo' -k -a '(__fish_complete_suffix .m | string match -r ".*(?:\.m|/)\$")' -d Script
