# Completion of nisrouv's locate-convert in fish.
complete -c locate-convert -l from -x -a 'mlocate locate02 bigram list list0' -d 'The format of the input'
complete -c locate-convert -l to -x -a 'mlocate locate02 bigram list list0' -d 'The format of the output'
