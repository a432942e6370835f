# Completion of dory and dory_server for fish.

function __dory_words
    count (commandline -opc)
end

set -l commands init post remove search resume latest rotate
set -l options folder member depth probes master serial
set -l alone help version
set -l roles lead follow

complete -c dory -n 'test (__dory_words) -gt 1' -f
complete -c dory -n 'test (__dory_words) -eq 2; or test (__dory_words) -eq 3' -a '127.0.0.1:7001 127.0.0.1:7002'
complete -c dory -n 'test (__dory_words) -eq 4' -a "$commands"
for option in $options
    complete -c dory -n 'test (__dory_words) -gt 4; and test (commandline -opc)[5] = init' -l $option -x
end

complete -c dory_server -f
complete -c dory_server -n 'test (__dory_words) -eq 1' -a "$roles"
complete -c dory_server -n 'test (__dory_words) -eq 2' -a '127.0.0.1:7001 127.0.0.1:7002'

for name in dory dory_server
    for option in $alone
        complete -c $name -n 'test (__dory_words) -eq 1' -l $option
    end
end
