# Completion of pfx in fish: its subcommands, their options, set files (*.toml), scripts (*.csv) and stores.

function __pfx_place -d 'The place of the word that is typed behind the subcommand, options and their values left out'
    set -l place -1
    set -l skip 0
    for word in (commandline -opc)[2..-1]
        if test $skip = 1
            set skip 0
        else
            switch $word
                case --at --workers --batch --log --after --every --from --to --number
                    set skip 1
                case '-?*'
                case '*'
                    set place (math $place + 1)
            end
        end
    end
    math $place + 1
end

function __pfx_at -d 'Whether the word that is typed is one of this subcommand, at this place' -a subcommand place
    __fish_seen_subcommand_from $subcommand; and test (__pfx_place) = $place
end

complete -c pfx -f
complete -c pfx -s h -l help -d 'Print help'
complete -c pfx -s V -l version -d 'Print version'

complete -c pfx -n __fish_use_subcommand -a plan -d 'Print which tasks run in each of the first slots'
complete -c pfx -n __fish_use_subcommand -a init -d 'Make a new store from a task set'
complete -c pfx -n __fish_use_subcommand -a run -d 'Run a script of commands on a store'
complete -c pfx -n __fish_use_subcommand -a status -d 'Show where the tasks and jobs of a store stand'
complete -c pfx -n __fish_use_subcommand -a replay -d "Run a store's commands again, and compare them with its records"
complete -c pfx -n __fish_use_subcommand -a show -d 'Show what the jobs of a store have computed'
complete -c pfx -n __fish_use_subcommand -a draw -d 'Draw the first slots of a plan as a picture'
complete -c pfx -n __fish_use_subcommand -a check -d 'Say what a task set asks for, or all that is wrong with it'
complete -c pfx -n __fish_use_subcommand -a explain -d 'Say what a fault means'
complete -c pfx -n __fish_use_subcommand -a migrate -d 'Make a store of this version from one of version 1'
complete -c pfx -n __fish_use_subcommand -a audit -d 'Check a history that logs keep, and sum up what each task got'
complete -c pfx -n __fish_use_subcommand -a head -d 'Tell the head that stands for all that a log has'
complete -c pfx -n __fish_use_subcommand -a help -d 'Print this message or the help of the given subcommand(s)'

complete -c pfx -n '__fish_seen_subcommand_from plan' -l at -x -d 'Begin with a ledger, T:A,A,..'
complete -c pfx -n '__fish_seen_subcommand_from plan' -l ledger -d 'Print one more line: the ledger behind the last slot'
complete -c pfx -n '__fish_seen_subcommand_from plan' -l json -d 'Print an object of JSON a line'
complete -c pfx -n '__fish_seen_subcommand_from init' -l at -x -d 'Begin with a ledger, T:A,A,..'
complete -c pfx -n '__fish_seen_subcommand_from init' -l json -d 'Print an object of JSON a line'
complete -c pfx -n '__fish_seen_subcommand_from run' -l workers -x -d 'How many workers run the jobs, 0 to 64'
complete -c pfx -n '__fish_seen_subcommand_from run' -l batch -x -d 'How many slots of a record are kept at once, 1 to 16'
complete -c pfx -n '__fish_seen_subcommand_from run' -l log -r -F -d "Keep the store's whole history in a log"
complete -c pfx -n '__fish_seen_subcommand_from run' -l after -r -F -d 'The log that a new one goes on from'
complete -c pfx -n '__fish_seen_subcommand_from run' -l strict -d 'End at the first refused record, with status 7'
complete -c pfx -n '__fish_seen_subcommand_from run' -l json -d 'Print an object of JSON a line'
complete -c pfx -n '__fish_seen_subcommand_from status' -l json -d 'Print an object of JSON a line'
complete -c pfx -n '__fish_seen_subcommand_from replay' -l json -d 'Print an object of JSON a line'
complete -c pfx -n '__fish_seen_subcommand_from show' -l json -d 'Print an object of JSON a line'
complete -c pfx -n '__fish_seen_subcommand_from draw' -l at -x -d 'Begin with a ledger, T:A,A,..'
complete -c pfx -n '__fish_seen_subcommand_from check' -l json -d 'Print an object of JSON a line'
complete -c pfx -n '__fish_seen_subcommand_from explain' -l json -d 'Print an object of JSON a line'
complete -c pfx -n '__fish_seen_subcommand_from migrate' -l json -d 'Print an object of JSON a line'
complete -c pfx -n '__fish_seen_subcommand_from audit' -l every -x -d 'How many slots a window has, 1 to 1048576'
complete -c pfx -n '__fish_seen_subcommand_from audit' -l from -x -d 'The slot that the first window begins at'
complete -c pfx -n '__fish_seen_subcommand_from audit' -l to -x -d 'The slot that the last window ends before'
complete -c pfx -n '__fish_seen_subcommand_from audit' -l number -x -d 'The number of a record to print alone'
complete -c pfx -n '__fish_seen_subcommand_from audit' -l csv -d 'Print CSV with a header'
complete -c pfx -n '__fish_seen_subcommand_from audit' -l json -d 'Print an object of JSON a line'
complete -c pfx -n '__fish_seen_subcommand_from head' -l json -d 'Print an object of JSON a line'

complete -c pfx -k -n '__pfx_at plan 1' -a '(__fish_complete_suffix .toml)'
complete -c pfx -k -n '__pfx_at init 1' -a '(__fish_complete_suffix .toml)'
complete -c pfx -n '__pfx_at init 2' -F
complete -c pfx -n '__pfx_at run 1' -F
complete -c pfx -k -n '__pfx_at run 2' -a '(__fish_complete_suffix .csv)'
complete -c pfx -n '__pfx_at status 1' -F
complete -c pfx -n '__pfx_at replay 1' -F
complete -c pfx -n '__pfx_at show 1' -F
complete -c pfx -k -n '__pfx_at draw 1' -a '(__fish_complete_suffix .toml)'
complete -c pfx -k -n '__pfx_at check 1' -a '(__fish_complete_suffix .toml)'
complete -c pfx -n '__pfx_at explain 1'
complete -c pfx -n '__pfx_at migrate 1' -F
complete -c pfx -n '__pfx_at migrate 2' -F
complete -c pfx -n '__pfx_at audit 1' -F
complete -c pfx -n '__pfx_at head 1' -F
complete -c pfx -n '__pfx_at help 1' -a 'plan init run status replay show draw check explain migrate audit head help'
