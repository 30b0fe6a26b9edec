#compdef sgt
# Completions of sgt for zsh: a file named _sgt in a folder of fpath, or to be sourced behind compinit.

_sgt() {
    local curcontext=$curcontext state line
    local -a commands topics quiet
    local help='(- : *)--help[what the command is for, and all its options]'
    local why='--why[tell standard error behind a no what to type to learn more]'
    local json='--json[write the answer as an object of JSON]'
    local -a output
    output=('(-o --output)'{-o,--output}'[write the answer to this file]:file:_files')
    local progress='--progress[tell standard error of each million lines read]'
    commands=(
        'audit:judge a bundle'
        'serial:run the committed transactions one after another by rank'
        'replay:run events, and write replies and the bundle'
        'run:run scripts by several workers'
        'serve:answer events one by one, and hand out bundles'
        'certify:make the certificate of logs that have none'
        'check:judge a history of a database'
        'explain:say what the verdict on a bundle means, or a rule'
        'draw:draw a valid bundle'
        'help:say what there is, or what a command is for'
    )
    topics=(
        F1 F2 F3 F4 F5 F6 F7 F8 F9 F10 F11 F12 F13 F14 F15 F16 F17 F18 F19 K1 K2 K3 K4
        E1 E2 E3 E4 E5 E6 E7 E8 E9 E10 E11 E12 L1 L2 L3 V1 V2 V3 V4 V5 V6 V7 V8 V9 V10 P1 P2 P3 C1
        no-order no-ranks no-walk
        internal duplicate G1a unwritten G1b value G0 G1c G-single G2-item
        G1c-process G-single-process G2-item-process G1c-realtime G-single-realtime G2-item-realtime
    )
    quiet=('(-q --quiet)'{-q,--quiet}'[answer by the status alone]')
    _arguments -C '(- : *)--help[what there is]' '(- : *)--version[the version]' '1:command:->command' '*::word:->word'
    if [[ $state == command ]]; then
        _describe -t commands command commands
        return
    fi
    [[ $state == word ]] || return
    case $line[1] in
        audit) _arguments $help $json $why $output $progress $quiet \
            '(--chain)--workers=[how many sections are judged at once]:number:({1..16})' \
            '--expect-committed[how many transactions are to be committed]:number:' \
            '(--workers)--chain[the files are the bundles of one system in a row]' '*:bundle:_files' ;;
        serial) _arguments $help $why $output $progress $quiet '1:bundle:_files' ;;
        replay) _arguments $help $why $output $progress '--strict[status 1 where an event was refused]' \
            '--bundle=[write the bundle to this file]:file:_files' '1:events:_files' ;;
        run) _arguments $help $why $output '--workers=[how many scripts run at once]:number:({1..16})' \
            '--tries=[how often a script is tried]:number:({1..4})' \
            '--bundle=[write the bundle to this file]:file:_files' '1:scripts:_files' ;;
        serve) _arguments $help '--bundles=[write each bundle into this folder]:folder:_path_files -/' \
            '1:events:_files' ;;
        certify) _arguments $help $json $why $output $progress $quiet '1:logs:_files' ;;
        check) _arguments $help '(--html -q --quiet)--json[write the answer as an object of JSON]' \
            '(--json -q --quiet)--html[write the answer as a page of HTML]' $why $output $progress $quiet \
            '(--against)--order[write an order that serves]' '--real-time[the order has to keep real time]' \
            '--sessions[the order has to keep that of each session]' \
            '(--order --svg)--against[judge the order in this file]:order:_files' \
            '(--against)--svg=[draw the circle of a no in this file]:file:_files' '1:history:_files' ;;
        explain) _arguments $help $why $output '(--html)--json[write the answer as an object of JSON]' \
            '(--json)--html[write the explanation as a page of HTML]' '(--all)--tx=[say what this transaction did]:transaction:' \
            '(--tx)--all[explain all refused transactions, not the first hundred alone]' \
            '1:bundle or rule: _alternative "topics:rule:($topics)" "files:bundle:_files"' ;;
        draw) _arguments $help $why $output '--tx=[draw this transaction alone, with its cycle or its neighbours]:transaction:' \
            '--dot[Graphviz text in place of SVG]' '1:bundle:_files' ;;
        help) commands[-1]=() && _describe -t commands command commands ;;
    esac
}

if [[ $funcstack[1] == _sgt ]]; then
    _sgt "$@"
else
    compdef _sgt sgt
fi
