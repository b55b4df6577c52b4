# Completion for bash: the words of the commands, and the files that they read. Sourced, or put into
# /usr/share/bash-completion/completions, it completes `atomic se<Tab>` and `atomic run counter.java <Tab>`.

_atomic_words() {
    mapfile -t COMPREPLY < <(compgen -W "$*" -- "$word")
}

_atomic_files() {
    # the files with these endings, and the folders; all files where there are none
    local ending found=()
    for ending; do
        mapfile -t -O "${#found[@]}" found < <(compgen -f -X "!*.$ending" -- "$word")
    done
    mapfile -t -O "${#found[@]}" found < <(compgen -d -- "$word")
    [ ${#found[@]} -gt 0 ] || mapfile -t found < <(compgen -f -- "$word")
    COMPREPLY=("${found[@]}")
}

_atomic() {
    # a word that was typed in quotes is the same word
    local word=${COMP_WORDS[COMP_CWORD]} command=${COMP_WORDS[1]//[\"\'\\]/}
    case $COMP_CWORD in
    1)
        _atomic_words "check run serialise serialise-open replay derive verify blame verify-blame levels print generate"
        ;;
    2) [ "$command" = generate ] || _atomic_files java ;;
    3)
        case $command in
        run | serialise | serialise-open | replay) _atomic_files schedule witness ;;
        verify) _atomic_files book ;;
        verify-blame) _atomic_files blame ;;
        levels) _atomic_files levels ;;
        esac
        ;;
    esac
}

_atomic_why() {
    local word=${COMP_WORDS[COMP_CWORD]} first=${COMP_WORDS[1]//[\"\'\\]/}
    if [[ $COMP_CWORD -eq 1 && $word == -* ]]; then
        _atomic_words "--all --strict"
    elif [[ $COMP_CWORD -eq 1 || ($COMP_CWORD -eq 2 && ($first == --all || $first == --strict)) ]]; then
        _atomic_files java
    fi
}

_atomic_witness() {
    case $COMP_CWORD in
    1) _atomic_files java ;;
    2) _atomic_files schedule witness ;;
    esac
}

_atomic_trace() {
    local word=${COMP_WORDS[COMP_CWORD]} before=${COMP_WORDS[COMP_CWORD - 1]}
    case $COMP_CWORD in
    1) _atomic_files log ;;
    2) _atomic_words "--guards" ;;
    3) [ "$before" != --guards ] || _atomic_files guards ;;
    esac
}

_atomic_tool() {
    local word=${COMP_WORDS[COMP_CWORD]} tool=${COMP_WORDS[0]##*/} options="--help --version --output"
    local number before=- count=0
    # the words before that are no options, and no file to write to
    for ((number = 1; number < COMP_CWORD; number++)); do
        [[ ${COMP_WORDS[number]} == -* || $before == -o || $before == --output ]] || ((count += 1))
        before=${COMP_WORDS[number]}
    done
    [ "$tool" != atomic-sarif ] || options+=" --github --null"
    if [[ $before == -o || $before == --output ]]; then
        mapfile -t COMPREPLY < <(compgen -f -- "$word")
    elif [[ $word == -* ]]; then
        _atomic_words "$options"
    else
        case $tool$count in
        atomic-page1) _atomic_files schedule witness ;;
        atomic-page0 | atomic-witness0 | atomic-sarif*) _atomic_files java ;;
        esac
    fi
}

_atomic_java() {
    local word=${COMP_WORDS[COMP_CWORD]}
    if [[ $word == -* ]]; then
        _atomic_words "--public --infer --majority --strict --quiet --classpath --patch-module --library --emit" \
            "--explain --log"
    else
        _atomic_files java
    fi
}

complete -o filenames -F _atomic atomic
complete -o filenames -F _atomic_why atomic_why
complete -o filenames -F _atomic_witness atomic_witness
complete -o filenames -F _atomic_trace atomic_trace
complete -o filenames -F _atomic_java atomic-java
complete -o filenames -F _atomic_tool atomic-page atomic-witness atomic-sarif
