# Completion of pef for fish. docs/USAGE.md has its commands and options.

set -l commands prepare stubs load link show list extract inspect distances check help
set -l first "not __fish_seen_subcommand_from $commands"
set -l inspect '__fish_seen_subcommand_from inspect; and not __fish_seen_subcommand_from help'
set -l prepare '__fish_seen_subcommand_from prepare; and not __fish_seen_subcommand_from help'
set -l stubs '__fish_seen_subcommand_from stubs; and not __fish_seen_subcommand_from help'

complete -c pef -n $first -f
complete -c pef -n $first -a prepare -d 'Print the memory that an application and its libraries become'
complete -c pef -n $first -a stubs -d 'Make stubs of the libraries that fragments lack'
complete -c pef -n $first -a load -d 'Print the memory that containers become'
complete -c pef -n $first -a link -d 'Link a script to a container'
complete -c pef -n $first -a show -d 'Print the memory that the script on the standard input becomes'
complete -c pef -n $first -a list -d 'List what a container declares'
complete -c pef -n $first -a extract -d 'Write a container of a file to a file of its own'
complete -c pef -n $first -a inspect -d 'Print everything that can be known of files'
complete -c pef -n $first -a distances -d 'Print certificates that no relocation program is shorter'
complete -c pef -n $first -a check -d 'Check the certificates of a script'
complete -c pef -n $first -a help -d 'Print help'
complete -c pef -n $first -l version -d 'Print the version'
complete -c pef -n 'not __fish_seen_subcommand_from help' -s h -l help -d 'Print help'

complete -c pef -n '__fish_seen_subcommand_from show help' -f
complete -c pef -n "__fish_seen_subcommand_from help; and not __fish_seen_subcommand_from $commands[1..-2]" -a "$commands"
complete -c pef -n $inspect -l json -d 'Print JSON'
complete -c pef -n $inspect -l files0 -d 'Read the paths from the standard input'
complete -c pef -n $inspect -l resources -rF -d 'The file that has the resource fork'
complete -c pef -n $prepare -l root -x -d 'The fragment that is prepared'
complete -c pef -n $prepare -l library -rF -d 'A file with libraries only'
complete -c pef -n $prepare -s L -rF -d 'A folder with libraries'
complete -c pef -n $prepare -l no-stubs -d 'Make no stubs'
complete -c pef -n $prepare -l json -d 'Print JSON'
complete -c pef -n $prepare -l bytes -d 'With --json, print bytes in base64'
complete -c pef -n $prepare -s o -rF -d 'With --json, the folder that gets the bytes of sections'
complete -c pef -n $stubs -l first -x -d 'The first number, in hexadecimal'
complete -c pef -n $stubs -l step -x -d 'How far the numbers are from each other'
complete -c pef -n $stubs -l memory -d 'Give the symbols code and data'
complete -c pef -n $stubs -s o -rF -d 'The folder that gets the stubs'
complete -c pef -n "__fish_seen_subcommand_from prepare stubs; and not __fish_seen_subcommand_from help" -l no-weak -d 'Make no stubs of weak libraries'
