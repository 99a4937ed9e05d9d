# Completion of fcanon-close for fish, which tools/completions wrote.
complete -c fcanon-close -s h -l help -d 'show this help message and exit'
complete -c fcanon-close -x -l variant -a 'freecell bakers_game eight_off' -d 'the game of a first board without a header'
complete -c fcanon-close -x -l most -d 'how many classes there may be: 1000000'
complete -c fcanon-close -l collection -d 'write the boards as a collection too'
complete -c fcanon-close -l version -d 'print the release'
