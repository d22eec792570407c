# Completion of the words of busview for fish.
function __busview_words
    set -l before (commandline -opc)
    set -l options
    switch "$before[2..]"
        case ''
            printf '%s\n' packets tree dot json trace waves dot-run json-run explain capture script flawed resets nosy diff import --help --version
        case flawed
            printf '%s\n' BadLength BadInverse NotSelfId WrongId BadOrder Cut TwoParents Empty TooFewChildren TreesLeft AfterRoot NoRoot TooMany
        case 'flawed * * *'
            echo --1995
        case 'script*' 'flawed*' capture
        case '*'
            switch "$before[2..]"
                case 'tree*' dot 'dot *'
                    set options --1995 --names
                case 'packets*' json 'json *'
                    set options --1995
                case explain 'explain *'
                    set options --json
                case 'resets*' 'nosy*'
                    set options --1995 --short --json
                case 'diff*'
                    set options --1995 --json
                case import
                    set options --reset=
            end
            # An option that is given isn't offered again.
            for option in $options
                contains -- $option $before; or echo $option
            end
            __fish_complete_path (commandline -ct)
    end
end
complete -c busview -f -a '(__busview_words)'
