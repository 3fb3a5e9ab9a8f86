# Completion of capcheck for fish: its commands, their options, then files.
complete -c capcheck -n __fish_use_subcommand -f -a explain -d 'what a word means'
complete -c capcheck -n __fish_use_subcommand -f -a round -d 'how a request is rounded'
complete -c capcheck -n __fish_use_subcommand -f -a judge -d 'the verdict on a log'
complete -c capcheck -n __fish_use_subcommand -f -a vectors -d 'check a vector file'
complete -c capcheck -n '__fish_seen_subcommand_from explain round' -f
complete -c capcheck -n '__fish_seen_subcommand_from explain' -l memory -d 'the bytes in memory, in order of address'
complete -c capcheck -n '__fish_seen_subcommand_from explain' -l tag -d 'a tagged capability'
complete -c capcheck -n '__fish_seen_subcommand_from judge' -l origins -d 'the root of each tagged capability'
