# Completions of dnr for bash.

_dnr() {
    local word=${COMP_WORDS[COMP_CWORD]} before=${COMP_WORDS[COMP_CWORD - 1]} command=${COMP_WORDS[1]}
    local words=''
    compopt +o default +o nospace 2>/dev/null
    COMPREPLY=()
    if ((COMP_CWORD == 1)); then
        words='match follow serve check compile hide prune keep sample'
    else
        case $command,$before in
            check,check) words='static dynamic session' ;;
            sample,*) return ;;
            # (NAME is a name, and stands behind FILE)
            keep,keep) ;;
            keep,*) ((COMP_CWORD == 3)) && return ;;
            serve,--workers) words='1 2 3 4 5 6 7 8' ;;
            # (an extension is a folder of the current one, named without a slash)
            serve,--ext) mapfile -t COMPREPLY < <(compgen -d -X '*[!a-z0-9_-]*' -- "$word"); return ;;
            serve,--psl) ;;
            serve,*)
                if [[ $word == -* ]]; then
                    words='--workers --psl --ext --list'
                fi
                ;;
        esac
    fi
    if [[ -n $words ]]; then
        mapfile -t COMPREPLY < <(compgen -W "$words" -- "$word")
    else
        # (of NAME=F, the value of --list, bash hands on what stands behind the = alone)
        compopt -o filenames 2>/dev/null
        mapfile -t COMPREPLY < <(compgen -f -- "${word#=}")
    fi
}

complete -F _dnr dnr
