# Completions of dmlw for fish. The commands and their words are those that `dmlw help` prints.

# Prints the words before this one, without the program's name and the options.
function __dmlw_words
    string match -v -- '-*' (commandline -opc)[2..-1]
end

# Prints what `dmlw help` prints for these words, or nothing if no dmlw is in PATH.
function __dmlw_help
    command -q dmlw; and command dmlw help $argv 2>/dev/null
end

# Prints the commands, each with what it does.
function __dmlw_commands
    __dmlw_help | string replace -rf '^  ([a-z]+)  +(.*)$' '$1'\t'$2'
end

# Prints the commands, and `formats`, without what they do: the words that may follow `help`.
function __dmlw_helped
    __dmlw_commands | string replace -r '\t.*' '' | string match -v help
    echo formats
end

# Whether the word at this place has one of the given names in the usage of its command.
function __dmlw_is
    set -l words (__dmlw_words)
    set -l place (count $words)
    test $place -gt 0; or return
    set -l usage (__dmlw_help $words[1] | string replace -rf '^Usage: dmlw [a-z]+ (\[OPTIONS\] )?' '' | string split ' ')
    string match -qr -- $argv[1] "$usage[$place]"
end

complete -c dmlw -f
complete -c dmlw -l explain -d "Adds lines that help after a fault's line"
complete -c dmlw -s h -l help -d 'Print help'
complete -c dmlw -s V -l version -d 'Print version'
complete -c dmlw -n 'test (count (__dmlw_words)) -eq 0' -a '(__dmlw_commands)'
complete -c dmlw -n 'test "$(__dmlw_words)" = help' -a '(__dmlw_helped)'
complete -c dmlw -n '__dmlw_is "^<WHAT>"' -a 'entries: mark: flush'
complete -c dmlw -F -n '__dmlw_is "^<(?!(WHAT|M|SECTORS)>)"'
