# Completion of the words of busconf for fish.
function __busconf_words
    set -l before (commandline -opc)
    switch "$before[2..]"
        case ''
            printf '%s\n' run advice read read95 maps rom make --help --version
        case 'make*'
        case '*'
            __fish_complete_path (commandline -ct)
    end
end
complete -c busconf -f -a '(__busconf_words)'
