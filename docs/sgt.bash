# Completions of sgt for bash: source this file.
_sgt() {
    local word=${COMP_WORDS[COMP_CWORD]} command=${COMP_WORDS[1]} options=
    if [ "$COMP_CWORD" = 1 ]; then
        COMPREPLY=($(compgen -W 'audit serial replay run serve certify check explain draw help --help --version' -- "$word"))
        return
    fi
    case $command in
        audit) options='--quiet -q --workers --chain --expect-committed --json --why --progress --output -o --help' ;;
        replay) options='--strict --why --progress --bundle --output -o --help' ;;
        run) options='--workers --tries --why --bundle --output -o --help' ;;
        explain) options='--tx --all --json --html --why --output -o --help F1 F2 F3 F4 F5 F6 F7 F8 F9 F10 F11 F12 F13 F14 F15 F16 F17 F18 F19 K1 K2 K3 K4 E1 E2 E3 E4 E5 E6 E7 E8 E9 E10 E11 E12 L1 L2 V1 V2 V3 V4 V5 V6 V7 V8 V9 V10 P1 P2 P3 L3 C1 no-order no-ranks no-walk internal duplicate G1a unwritten G1b value G0 G1c G-single G2-item G1c-process G-single-process G2-item-process G1c-realtime G-single-realtime G2-item-realtime' ;;
        draw) options='--tx --dot --why --output -o --help' ;;
        serial) options='--quiet -q --why --progress --output -o --help' ;;
        certify) options='--quiet -q --json --why --progress --output -o --help' ;;
        serve) options='--bundles --help' ;;
        check) options='--order --real-time --sessions --against --svg --quiet -q --json --html --why --progress --output -o --help' ;;
        help) COMPREPLY=($(compgen -W 'audit serial replay run serve certify check explain draw' -- "$word")); return ;;
    esac
    COMPREPLY=($(compgen -W "$options" -- "$word") $(compgen -f -- "$word"))
}
complete -o filenames -F _sgt sgt
