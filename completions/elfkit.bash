# Completion of elfkit's commands, options and files for bash.
_elfkit() {
    local word=${COMP_WORDS[COMP_CWORD]} options=
    COMPREPLY=()
    if [ "$COMP_CWORD" -eq 1 ]; then
        mapfile -t COMPREPLY < <(compgen -W "readelf nm size strings strip elflint calls selftest rehash copy unstrip lines --help --version" -- "$word")
        return
    fi
    case ${COMP_WORDS[1]} in
        readelf) options="-h -l -S -s -r -d -n -V" ;;
        nm) options="-A -g -u -v -P -t" ;;
        strings) options="-a -n -t" ;;
        strip) options="-g -R -f -o" ;;
        calls) options="-o -i" ;;
        copy) options="-R -u -n -f -a -o" ;;
        selftest | rehash | unstrip) options="-o" ;;
    esac
    if [[ $word == -* ]]; then
        mapfile -t COMPREPLY < <(compgen -W "$options --help" -- "$word")
    else
        compopt -o filenames
        mapfile -t COMPREPLY < <(compgen -f -- "$word")
    fi
}
complete -F _elfkit elfkit
