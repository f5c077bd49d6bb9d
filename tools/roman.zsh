#compdef roman roman-advice roman-draw roman-lint roman-expand roman-live roman-mend roman-talk
# Completion of roman's commands, of its tools and of file names for zsh. It needs no other file.

_roman_tool() {
    local -a options
    local program='--program[the program to call]:program:_files'
    case $service in
        *lint)
            options=('--json[write a JSON value, for editors]' '--all[also show consequences of a finding]'
                '--strict[end with status 1 if there are warnings]'
                $program "--no-program[don't call the program]")
            ;;
        *expand)
            options=('-o[write to this file]:file:_files' '--map[write where each name and step comes from]:file:_files'
                '--costs[write the plain form of these costs]:file:_files')
            ;;
        *draw)
            options=('--explanation[draw the last explanation in a file]:file:_files'
                '--why[draw why there is no composition]' '--first[write the first step of an explanation]'
                '--offers[draw what can happen when offers are followed]' '--all[draw the whole game of an explanation]'
                '--text[write the explanation in words]' '-o[write to this file]:file:_files'
                '--dot[write the text for Graphviz]' $program)
            ;;
        *talk) options=($program) ;;
        *advice)
            options=('--from[read the output of advise from a file]:file:_files' '--all[show all rows]' $program)
            ;;
        *mend)
            options=('--two[try pairs of changes if no single one helps]'
                '--spare[write which further service makes up for any failure]' $program
                '2:session:_files -g "*.session"')
            ;;
    esac
    _arguments $options ':system:_files -g "*.json"' ':costs:_files -g "*.costs"'
}

_roman_live() {
    if [[ $words[2] == ask ]]; then
        _arguments '1: :(ask)' '--key[a unique text for the request]:key:' '2:home:_files -g "*.toml"' '3:action:'
    elif [[ $words[2] == history ]]; then
        _arguments '1: :(history)' '--service[show only this service]:service:' '--since[show entries since]:time:' \
            '--json[write lines of JSON]' '2:home:_files -g "*.toml"'
    elif [[ $CURRENT == 2 && $words[2] == [ah]* ]]; then
        _values command ask history
    else
        _arguments '--check[check the file, and call no device]' '--simulate[play all devices by hand, on the page]' \
            '--verbose[log each event]' ':home:_files -g "*.toml"'
    fi
}

_roman() {
    local -a commands
    if [[ $service == roman-live ]]; then
        _roman_live
        return
    fi
    if [[ $service != roman ]]; then
        _roman_tool
        return
    fi
    commands=(
        'synth:report on the starting states'
        'run:answer the lines of a session'
        'certify:write a certificate of the lost pairs'
        'check:check a certificate'
        'make:make a large system of workers'
        'resilience:report what remains if services fail'
        'shortest:report within how many requests pairs are lost'
        'advise:report what requests cost at worst'
    )
    case $CURRENT:$words[2] in
        2:*) _describe command commands ;;
        3:make) _values workers {1..10} ;;
        3:(synth|run|certify|check|resilience|shortest|advise)) _files -g '*.json' ;;
        4:run) _files -g '*.(session|txt)' ;;
        4:check) _files -g '*.(cert|txt)' ;;
        4:advise) _files -g '*.(costs|json)' ;;
        *) _message 'nothing more' ;;
    esac
}

_roman "$@"
