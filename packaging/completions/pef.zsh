#compdef pef
# Completion of pef for zsh. docs/USAGE.md has its commands and options.

local -a commands=(
    'prepare:print the memory that an application and its libraries become'
    'stubs:make stubs of the libraries that fragments lack'
    'load:print the memory that containers become'
    'link:link a script to a container'
    'show:print the memory that the script on the standard input becomes'
    'list:list what a container declares'
    'extract:write a container of a file to a file of its own'
    'inspect:print everything that can be known of files'
    'distances:print certificates that no relocation program is shorter'
    'check:check the certificates of a script'
    'help:print help'
)
local -a help=('(- *)'{-h,--help}'[print help]')
local curcontext=$curcontext state line
_arguments -C $help '(- *)--version[print the version]' '1:command:->command' '*::operand:->operand'
case $state in
command)
    _describe command commands
    ;;
operand)
    case $words[1] in
    prepare)
        _arguments $help '--root[the fragment that is prepared]:name: ' '*--library[a file with libraries only]:file:_files' \
            '*-L[a folder with libraries]:folder:_files -/' '--no-stubs[make no stubs]' '--no-weak[make no stubs of weak libraries]' \
            '--json[print JSON]' '(-o)--bytes[with --json, print bytes in base64]' \
            '(--bytes)-o[with --json, the folder that gets the bytes of sections]:folder:_files -/' \
            '*:[NAME=]FILE:{compset -P 1 "*="; _files}'
        ;;
    stubs)
        _arguments $help '--first[the first number, in hexadecimal]:address: ' '--step[how far the numbers are from each other]:bytes: ' \
            '--no-weak[make no stubs of weak libraries]' '--memory[give the symbols code and data]' '-o[the folder that gets the stubs]:folder:_files -/' \
            '*:[NAME=]FILE:{compset -P 1 "*="; _files}'
        ;;
    load) _arguments $help '*:NAME=FILE:{compset -P 1 "*=" && _files}' ;;
    link) _arguments $help '1:script:_files' '2:container:_files' ;;
    show) _arguments $help ;;
    list) _arguments $help '1:container:_files' ;;
    extract) _arguments $help '1:file:_files' '2:name of a fragment, or # and a number: ' '3:container:_files' ;;
    inspect)
        _arguments $help '--json[print JSON]' '(*)--files0[read the paths from the standard input]' \
            '--resources[the file that has the resource fork]:resource fork:_files' '*:file:_files'
        ;;
    distances) _arguments $help '1:script:_files' ;;
    check) _arguments $help '1:script:_files' '2:certificates:_files' ;;
    help) _arguments '1:command:{_describe command commands}' ;;
    esac
    ;;
esac
