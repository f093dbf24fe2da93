#compdef telegate
# Completion of telegate for zsh: a file `_telegate` in a folder of $fpath.
local -a commands
commands=(
    'show101:shows the line frame at the front of octets'
    'show104:shows the APDU at the front of octets'
    'check:checks a file of settings'
    'replay:runs the gateway over the events of a trace'
    'sim:runs the gateway over simulated stations'
    'audit:compares a recorded run with the run over its events'
    'run:runs the gateway between a line and a control centre'
    'status:asks a live run how it stands'
    'state:shows what a run would go on with'
    'capture:writes a recorded run as a capture that Wireshark reads'
    'stations:plays outstations in real time'
    'centre:is a control centre, to try a gateway with'
    'help:tells what a command does'
)
if ((CURRENT == 2)); then
    _describe command commands
    _values option --help --version
    return
fi
case $words[2] in
    check)
        _arguments '--live[judges the keys of live as run does]' \
            '--explain[what is wrong, and where]' '--site[judges this file first]:site:_files' \
            '--help[tells what the command does]' '2:settings:_files'
        ;;
    run)
        _arguments '--redial[reaches the line again if it ends]' \
            '--log[tells what happens]' '--record[prints each event and each action]' \
            '--state[keeps the state there]:directory:_files -/' \
            "--state-or-stop[ends if it can't be kept]" '*--allow[lets in this address]:address:' \
            '--status[shows there how it stands]:host and port:' \
            '--site[what belongs to this site]:site:_files' \
            '--log-severity[tells how severe each line is]' \
            '--help[tells what the command does]' '2:settings:_files'
        ;;
    replay)
        _arguments '--left[what was not acknowledged]' '--counts[what was counted]' \
            '--words[events and actions in words]' '--color[in colours]' \
            '--help[tells what the command does]' '2:settings:_files' '3:trace:_files'
        ;;
    sim)
        _arguments '--words[events and actions in words]' '--color[in colours]' \
            '--help[tells what the command does]' '2:settings:_files' '3:script:_files'
        ;;
    status)
        _arguments '--json[JSON in place of the table]' '--help[tells what the command does]' \
            '2:host and port:'
        ;;
    state) _arguments '--help[tells what the command does]' '2:directory:_files -/' '3:settings:_files' ;;
    audit | capture) _arguments '--help[tells what the command does]' '2:settings:_files' '3:record:_files' ;;
    stations) _arguments '--words[frames in words]' '--help[tells what the command does]' '2:settings:_files' '3:script:_files' ;;
    centre)
        _arguments '--tagged[gives a command a time tag]' '--json[prints JSON objects, one a line]' \
            '--wait[how many seconds an answer may take]:seconds:' \
            '--help[tells what the command does]' '2:host and port:' '*:settings or words:_files'
        ;;
    show101) _arguments '--words[on one line, in words]' '--help[tells what the command does]' '2:sizes:' '3:octets:' ;;
    show104) _arguments '--words[on one line, in words]' '--help[tells what the command does]' '2:octets:' ;;
    help) _describe command commands ;;
esac
