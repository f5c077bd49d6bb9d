# Completion of roman's commands, of its tools and of file names for fish. It needs no other file.

function __roman_words
    commandline -opc | count
end

function __roman_file --description 'Whether the next word has that place, after one of these commands'
    test (__roman_words) -eq $argv[1]; and contains -- (commandline -opc)[2] (string split , $argv[2])
end

complete -c roman -f
complete -c roman -n 'test (__roman_words) -eq 1' -a synth -d 'report on the starting states'
complete -c roman -n 'test (__roman_words) -eq 1' -a run -d 'answer the lines of a session'
complete -c roman -n 'test (__roman_words) -eq 1' -a certify -d 'write a certificate of the lost pairs'
complete -c roman -n 'test (__roman_words) -eq 1' -a check -d 'check a certificate'
complete -c roman -n 'test (__roman_words) -eq 1' -a make -d 'make a large system of workers'
complete -c roman -n 'test (__roman_words) -eq 1' -a resilience -d 'report what remains if services fail'
complete -c roman -n 'test (__roman_words) -eq 1' -a shortest -d 'report within how many requests pairs are lost'
complete -c roman -n 'test (__roman_words) -eq 1' -a advise -d 'report what requests cost at worst'
complete -c roman -n '__roman_file 2 make' -a '(seq 10)'
complete -c roman -k -n '__roman_file 2 synth,run,certify,check,resilience,shortest,advise' -a '(__fish_complete_suffix .json)'
complete -c roman -k -n '__roman_file 3 run' -a '(__fish_complete_suffix .session)'
complete -c roman -k -n '__roman_file 3 check' -a '(__fish_complete_suffix .cert)'
complete -c roman -k -n '__roman_file 3 advise' -a '(__fish_complete_suffix .costs)'

for tool in roman-lint roman-expand roman-draw roman-talk roman-advice roman-mend
    complete -c $tool -k -a '(__fish_complete_suffix .json)'
end
for tool in roman-lint roman-draw roman-talk roman-advice roman-mend
    complete -c $tool -l program -r -d 'the program to call'
end
for tool in roman-expand roman-draw
    complete -c $tool -s o -r -d 'write to this file'
end
complete -c roman-lint -l json -d 'write a JSON value, for editors'
complete -c roman-lint -l all -d 'also show consequences of a finding'
complete -c roman-lint -l strict -d 'end with status 1 if there are warnings'
complete -c roman-lint -l no-program -d 'do not call the program'
complete -c roman-mend -l two -d 'try pairs of changes if no single one helps'
complete -c roman-mend -l spare -d 'write which further service makes up for any failure'
complete -c roman-expand -l map -r -d 'write where each name and step comes from'
complete -c roman-expand -l costs -r -d 'write the plain form of these costs'
complete -c roman-draw -l explanation -r -d 'draw the last explanation in a file'
complete -c roman-draw -l why -d 'draw why there is no composition'
complete -c roman-draw -l offers -d 'draw what can happen when offers are followed'
complete -c roman-draw -l all -d 'draw the whole game of an explanation'
complete -c roman-draw -l first -d 'write the first step of an explanation'
complete -c roman-draw -l text -d 'write the explanation in words'
complete -c roman-draw -l dot -d 'write the text for Graphviz'
complete -c roman-advice -l from -r -d 'read the output of advise from a file'
complete -c roman-advice -l all -d 'show all rows'

complete -c roman-live -k -a '(__fish_complete_suffix .toml)'
complete -c roman-live -n 'test (__roman_words) -eq 1' -a ask -d 'ask a running home for an action'
complete -c roman-live -n 'not __fish_seen_subcommand_from ask history' -l check -d 'check the file, and call no device'
complete -c roman-live -n 'not __fish_seen_subcommand_from ask history' -l simulate -d 'play all devices by hand, on the page'
complete -c roman-live -n 'not __fish_seen_subcommand_from ask history' -l verbose -d 'log each event'
complete -c roman-live -n 'test (__roman_words) -eq 1' -a history -d 'show requests, failures and changes'
complete -c roman-live -n '__fish_seen_subcommand_from history' -l service -x -d 'show only this service'
complete -c roman-live -n '__fish_seen_subcommand_from history' -l since -x -d 'show entries since a time'
complete -c roman-live -n '__fish_seen_subcommand_from history' -l json -d 'write lines of JSON'
complete -c roman-live -n '__fish_seen_subcommand_from ask' -l key -x -d 'a unique text for the request'
