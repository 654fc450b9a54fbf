# Completion of nisrouv's locate-exercise in fish: it takes two numbers, so no files are offered.
complete -c locate-exercise -f
