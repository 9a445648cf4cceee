# Completion of acpins-survey(1) for bash.
_acpins_survey() {
    local word=${COMP_WORDS[COMP_CWORD]} before=("${COMP_WORDS[@]:1:COMP_CWORD-1}") options='' option
    local commands='bodies check diff html json list map report show uses'
    COMPREPLY=()
    if ((COMP_CWORD == 1)); then
        mapfile -t COMPREPLY < <(compgen -W "$commands help -h --help --version" -- "$word")
        compopt +o default
        return
    fi
    if [[ ${before[0]} == help ]]; then
        ((COMP_CWORD > 2)) || mapfile -t COMPREPLY < <(compgen -W "$commands" -- "$word")
        compopt +o default
        return
    fi
    case " ${before[*]} " in *' -- '*) return ;; esac
    case ${before[-1]} in
        -h | --help | --version | --depth | --ignore | --width | =)
            compopt +o default
            return
            ;;
    esac
    [[ $word == -* ]] || return
    [[ ${before[0]} != @(report|check|diff) ]] || case " ${before[*]} " in *' -v '*) ;; *) options=' -v' ;; esac
    [[ ${before[0]} != check ]] || options+=' --ignore'
    [[ ${before[0]} != report ]] || case " ${before[*]} " in *' --width '*) ;; *) options+=' --width' ;; esac
    [[ ${before[0]} != list ]] || case " ${before[*]} " in *' --bodies '*) ;; *) options=' --bodies' ;; esac
    for option in --depth --hex; do
        case " ${before[*]} " in
            *" $option "*) ;;
            *) options+=" $option" ;;
        esac
    done
    ((COMP_CWORD > 2)) || options+=' -h --help'
    mapfile -t COMPREPLY < <(compgen -W "$options" -- "$word")
    compopt +o default
}
complete -o default -F _acpins_survey acpins-survey
