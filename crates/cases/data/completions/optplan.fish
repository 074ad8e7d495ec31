# Completions of optplan for fish: put this file into ~/.config/fish/completions.

complete -c optplan -n __fish_use_subcommand -f -a solve -d 'Find a cheapest plan, or show that there is none'
complete -c optplan -n __fish_use_subcommand -f -a validate -d 'Test whether a plan solves a task'
complete -c optplan -n __fish_use_subcommand -f -a check -d 'Check a certificate, and say what it shows'
complete -c optplan -n __fish_use_subcommand -f -a explain -d 'Explain what is wrong with a task, a plan or a certificate, or summarize a task'
complete -c optplan -n __fish_use_subcommand -f -a help -d 'Print the help of the program or of a command'
complete -c optplan -n __fish_use_subcommand -f -s V -l version -d 'Print the version'
complete -c optplan -s h -l help -d 'Print the help'

complete -c optplan -n '__fish_seen_subcommand_from solve' -r -l plan -d 'Also write the plan to this file'
complete -c optplan -n '__fish_seen_subcommand_from solve' -r -l cert -d 'Write the certificate of the answer to this file'
complete -c optplan -n '__fish_seen_subcommand_from solve' -x -l states -d 'List at most this many states'
complete -c optplan -n '__fish_seen_subcommand_from solve' -x -l instances -d 'Keep at most this many action instances'
complete -c optplan -n '__fish_seen_subcommand_from solve' -x -l seconds -d 'Stop after this many seconds, with the bound by then'
complete -c optplan -n '__fish_seen_subcommand_from solve' -x -l cert-version -a '2 3 4' -d 'Let the certificate have this version at most'
complete -c optplan -n '__fish_seen_subcommand_from solve' -l json -d 'Print the answer as a line of JSON'
complete -c optplan -n '__fish_seen_subcommand_from solve' -l progress -d 'Say on the standard error how far the search is'

complete -c optplan -n '__fish_seen_subcommand_from validate' -l json -d 'Print the answer as a line of JSON'

complete -c optplan -n '__fish_seen_subcommand_from check' -r -l plan -d 'Check that the plan in this file is a cheapest one'
complete -c optplan -n '__fish_seen_subcommand_from check' -x -l instances -d 'Keep at most this many action instances'
complete -c optplan -n '__fish_seen_subcommand_from check' -l json -d 'Print the answer as a line of JSON'
complete -c optplan -n '__fish_seen_subcommand_from check' -l progress -d 'Say on the standard error how much of the certificate is read'

complete -c optplan -n '__fish_seen_subcommand_from explain' -r -l cert -d 'Say what the certificate in this file shows, or why it is refused'
complete -c optplan -n '__fish_seen_subcommand_from explain' -r -l plan -d 'With --cert: check that the plan in this file is a cheapest one'
complete -c optplan -n '__fish_seen_subcommand_from explain' -l trace -d 'Say what each step of the plan adds and deletes'
complete -c optplan -n '__fish_seen_subcommand_from explain' -x -l instances -d 'Keep at most this many action instances'
complete -c optplan -n '__fish_seen_subcommand_from explain' -l json -d 'Print the answer as a line of JSON'

complete -c optplan -n '__fish_seen_subcommand_from help' -f -a 'solve validate check explain'
