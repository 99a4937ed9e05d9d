# Completion of fcanon-many for fish, which tools/completions wrote.
complete -c fcanon-many -n 'test (count (commandline -opc)) -eq 1' -f -a 'group share unique'
complete -c fcanon-many -n 'test (count (commandline -opc)) -eq 5' -f -a 'parallel slurm'
