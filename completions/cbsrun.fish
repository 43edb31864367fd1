# What fish completes of the words of cbsrun: commands, options, formats, and files.
#
# It is installed as share/fish/vendor_completions.d/cbsrun.fish.

set -l commands check size simulate replay serve help
set -l none "not __fish_seen_subcommand_from $commands"
set -l formed '__fish_seen_subcommand_from simulate replay; and not __fish_seen_subcommand_from help'
set -l checked '__fish_seen_subcommand_from check; and not __fish_seen_subcommand_from help'
set -l simulated '__fish_seen_subcommand_from simulate; and not __fish_seen_subcommand_from help'
set -l replayed '__fish_seen_subcommand_from replay; and not __fish_seen_subcommand_from help'
set -l strict '__fish_seen_subcommand_from check simulate; and not __fish_seen_subcommand_from help'
set -l sized '__fish_seen_subcommand_from size; and not __fish_seen_subcommand_from help'
set -l on_file '__fish_seen_subcommand_from check size simulate replay serve; and not __fish_seen_subcommand_from help'

complete -c cbsrun -f
complete -c cbsrun -s h -l help -d help
complete -c cbsrun -n $none -s V -l version -d 'the version'
complete -c cbsrun -n $none -a check -d 'what the servers of a file have and could have, and which jobs are in time always'
complete -c cbsrun -n $none -a size -d 'propose a reservation for each server that has none, as a load file'
complete -c cbsrun -n $none -a simulate -d 'run the jobs of a load, and report, draw, or write a line for each step or job'
complete -c cbsrun -n $none -a replay -d 'run the steps of a task file, and write a line for each, report, or draw'
complete -c cbsrun -n $none -a serve -d 'give the submits of each server to a client of its own, and write the results'
complete -c cbsrun -n $none -a help -d 'the help of a command'
complete -c cbsrun -n '__fish_seen_subcommand_from help' -a 'check size simulate replay serve'
complete -c cbsrun -n $checked -l as -x -a 'report json' -d 'what is written'
complete -c cbsrun -n $simulated -l as -x -a 'report json text svg trace lines csv record tape' -d 'what is written'
complete -c cbsrun -n $replayed -l as -x -a 'lines report json text svg trace record tape' -d 'what is written'
complete -c cbsrun -n $formed -l from -x -d 'the first tick that is shown'
complete -c cbsrun -n $formed -l to -x -d 'the tick after the last one that is shown'
complete -c cbsrun -n $formed -l server -x -d 'a server that is drawn; may be given several times'
complete -c cbsrun -n $simulated -l seed -x -d 'the seed of the numbers that are drawn'
complete -c cbsrun -n $simulated -l until -x -d 'the tick at which the simulation ends'
complete -c cbsrun -n $simulated -l seeds -x -d 'many simulations, one with each of these seeds'
complete -c cbsrun -n $strict -l strict -d 'status 1 if a job is late or refused, or is not promised'
complete -c cbsrun -n $sized -l all -d 'propose a reservation for each server'
complete -c cbsrun -n $on_file -k -a '(__fish_complete_suffix .toml)'
