# Completion of pgn_tool for fish: put this file into ~/.config/fish/completions/.
set -l commands export check list split
set -l first "not __fish_seen_subcommand_from $commands"
complete -c pgn_tool -n $first -f
complete -c pgn_tool -n $first -a export -d 'Write the games in export format'
complete -c pgn_tool -n $first -a check -d 'Check the games and count them and their moves'
complete -c pgn_tool -n $first -a list -d 'List the games, a line for each'
complete -c pgn_tool -n $first -a split -d 'Write each game to DIR, given first'
complete -c pgn_tool -n $first -s V -l version -d 'Print the version'
complete -c pgn_tool -s h -l help -d 'Print help'
complete -c pgn_tool -n '__fish_seen_subcommand_from export' -l reduced \
    -d 'Write the roster and the moves outside variations alone'
complete -c pgn_tool -n '__fish_seen_subcommand_from export' -l checked \
    -d 'Let a missing Result be the marker, and open the file twice'
complete -c pgn_tool -n "__fish_seen_subcommand_from $commands" -F
