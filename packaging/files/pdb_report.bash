_pdb_report() {
    local word=${COMP_WORDS[COMP_CWORD]}
    if [ "$COMP_CWORD" = 2 ]; then
        COMPREPLY=($(compgen -W 'frames names list' -- "$word"))
    else
        COMPREPLY=($(compgen -f -- "$word"))
    fi
}
complete -o filenames -F _pdb_report pdb_report
