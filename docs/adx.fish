# Completes the words after adx, for fish: ~/.config/fish/completions/adx.fish. Made by tools/man of what the program says of itself.
complete -c adx -f
complete -c adx -n __fish_use_subcommand -a 'day conn notices bidder gen close check archive-put archive-list reconcile serve post bid help'
complete -c adx -l help
complete -c adx -n __fish_use_subcommand -l version
complete -c adx -n '__fish_seen_subcommand_from help' -a 'day conn notices bidder gen close check archive-put archive-list reconcile serve post bid'
complete -c adx -n '__fish_seen_subcommand_from day' -l journal -r -F
complete -c adx -n '__fish_seen_subcommand_from conn' -l journal -r -F
complete -c adx -n '__fish_seen_subcommand_from notices' -l journal -r -F
complete -c adx -n '__fish_seen_subcommand_from gen' -l seed -x
complete -c adx -n '__fish_seen_subcommand_from gen' -l asks -x
complete -c adx -n '__fish_seen_subcommand_from close' -l journal -r -F
complete -c adx -n '__fish_seen_subcommand_from close' -l ratio
complete -c adx -n '__fish_seen_subcommand_from archive-put' -l archive -r -F
complete -c adx -n '__fish_seen_subcommand_from archive-list' -l archive -r -F
complete -c adx -n '__fish_seen_subcommand_from archive-list' -l seat -x
complete -c adx -n '__fish_seen_subcommand_from archive-list' -l cid -x
complete -c adx -n '__fish_seen_subcommand_from archive-list' -l from -x
complete -c adx -n '__fish_seen_subcommand_from archive-list' -l to -x
complete -c adx -n '__fish_seen_subcommand_from reconcile' -l journal -r -F
complete -c adx -n '__fish_seen_subcommand_from reconcile' -l bidder -x
complete -c adx -n '__fish_seen_subcommand_from serve' -l roster -r -F
complete -c adx -n '__fish_seen_subcommand_from serve' -l journal -r -F
complete -c adx -n '__fish_seen_subcommand_from serve' -l port -x
complete -c adx -n '__fish_seen_subcommand_from serve' -l workers -x
complete -c adx -n '__fish_seen_subcommand_from post' -l roster -r -F
complete -c adx -n '__fish_seen_subcommand_from post' -l journal -r -F
complete -c adx -n '__fish_seen_subcommand_from bid' -l prices -r -F
complete -c adx -n '__fish_seen_subcommand_from bid' -l port -x
