# Completions for bash, which ./dev manuals writes from the programs' helps.
_garvoeng() {
    local current=${COMP_WORDS[COMP_CWORD]} program=${COMP_WORDS[0]##*/} options
    if [ "$program" = passkey ] && [ "$COMP_CWORD" -gt 1 ]; then
        case ${COMP_WORDS[1]} in
            site | client) program=passkey-${COMP_WORDS[1]} ;;
            inspect | check | replay | explain) program="passkey ${COMP_WORDS[1]}" ;;
        esac
    fi
    case $program in
        passkey) options="inspect check replay explain site client help --help --version" ;;
        "passkey inspect") options="--help" ;;
        "passkey check") options="--challenge --cross --help --origin --type" ;;
        "passkey replay") options="--help" ;;
        "passkey explain") options="--help --json" ;;
        passkey-site) options="--at-least --attestation --existing --expire --help --log --max-credentials --new --no-sums --origin --profile --rp-id --rp-name --top-origin --version --wary" ;;
        passkey-client) options="--help --version" ;;
        softkey) options="no-uv self-attestation pin --help --version" ;;
    esac
    case $current in
        -*) mapfile -t COMPREPLY < <(compgen -W "$options" -- "$current") ;;
        *) mapfile -t COMPREPLY < <(compgen -W "$options" -- "$current"; compgen -f -- "$current") ;;
    esac
}
complete -F _garvoeng passkey passkey-site passkey-client softkey
