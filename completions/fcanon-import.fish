# Completion of fcanon-import for fish, which tools/completions wrote.
complete -c fcanon-import -s h -l help -d 'show this help message and exit'
complete -c fcanon-import -x -l variant -a 'freecell bakers_game eight_off' -d 'the game of the boards'
complete -c fcanon-import -l columns -d 'lines of cards are columns, where they may be rows'
complete -c fcanon-import -l rows -d 'lines of cards are rows, where they may be columns'
complete -c fcanon-import -l explain -d 'note also what is written in another spelling'
complete -c fcanon-import -l strict -d 'note the same, and end with status 1 if anything is noted'
complete -c fcanon-import -r -l program -d 'the program fcanon'
complete -c fcanon-import -l version -d 'print the release'
