# Completion of lumbraquay for fish: commands and options as its own help names them, and file names.
function __lumbraquay_commands
    lumbraquay --help 2>/dev/null | string replace -rf '^  ([a-z]+) +(.*)$' '$1\t$2'
end
# Of a command of two words the second ones, once both are there its options.
function __lumbraquay_options
    set -l words (commandline -opc)
    set -l actions (lumbraquay $words[2] --help 2>/dev/null | string replace -rf '^  ([a-z]+) +(.*)$' '$1\t$2')
    if test (count $actions) -gt 0 -a (count $words) -eq 2
        printf '%s\n' $actions
    else if test (count $actions) -gt 0
        lumbraquay $words[2] $words[3] --help 2>/dev/null | string replace -rf '^  (--[a-z-]+) (?:[A-Z]+ )? *(.*)$' '$1\t$2'
    else
        lumbraquay $words[2] --help 2>/dev/null | string replace -rf '^  (--[a-z-]+) (?:[A-Z]+ )? *(.*)$' '$1\t$2'
    end
end
complete -c lumbraquay -n __fish_use_subcommand -f -a '(__lumbraquay_commands)'
complete -c lumbraquay -n 'not __fish_use_subcommand' -a '(__lumbraquay_options)'
