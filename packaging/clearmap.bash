# Completion of clearmap's command line for bash. tools/gate/check_install.sh compares its words
# with --help.
_clearmap() {
    local word=${COMP_WORDS[COMP_CWORD]} before=${COMP_WORDS[COMP_CWORD - 1]} command=${COMP_WORDS[1]} words=''
    if [ "$COMP_CWORD" = 1 ]; then
        words='dist steps serve ask help --help --version'
    elif [ "$before" = --metric ]; then
        words='euclid2 city chess'
    elif [ "$before" = --edge ]; then
        words='open wall'
    elif [ "$before" = --query ]; then
        words='AT RECT PATH CLEAROF'
    else
        case $command in
            dist) words='--metric --edge --nearest --query --workers --help' ;;
            steps) words='--help' ;;
            serve) words='--connections --port --edge --blocks --versions --log --workers --help' ;;
            ask) words='--port --help' ;;
            help) words='dist steps serve ask' ;;
        esac
        case $before in
            --connections | --port | --blocks | --versions | --log | --workers) words='' ;;
        esac
    fi
    mapfile -t COMPREPLY < <(compgen -W "$words" -- "$word")
}
complete -o default -F _clearmap clearmap
