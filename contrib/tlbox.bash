# Completion of tlbox for bash: source this file. Made by contrib/make_completions.py from the table of commands: change that, and run it.

_tlbox_types() {
    awk '
        BEGIN { RS = "\001" }
        { text = text $0 }
        END {
            while (match(text, "//|/[*]")) {
                mark = substr(text, RSTART, 2)
                printf "%s ", substr(text, 1, RSTART - 1)
                text = substr(text, RSTART + 2)
                end = mark == "//" ? index(text, "\n") : index(text, "*/")
                text = end ? substr(text, end + (mark == "//" ? 0 : 2)) : ""
            }
            print text
        }' 2>/dev/null < "$1" | awk '
        BEGIN { RS = ";"; name_alone = "^[A-Za-z][A-Za-z0-9_.]*$" }
        {
            name = ""
            for (i = 1; i <= NF; i++) {
                if ($i ~ /---functions---/) functions = 1
                else if ($i ~ /---types---/) functions = 0
                else if (name == "") { name = $i; sub(/#.*/, "", name); if (name ~ /^(int|long|double|string|bytes|int128|int256|vector)$/) next }
                else if ($i == "=" && !functions && $(i + 1) ~ name_alone) { print $(i + 1); if (name ~ name_alone) print name }
            }
        }' | sort -u
    echo '!'
}

_tlbox() {
    local IFS=$'\n' words=() word operands operand schema
    COMPREPLY=()
    # bash parts words at a colon, as in HOST:PORT: they are joined again.
    for word in "${COMP_WORDS[@]:0:COMP_CWORD + 1}"; do
        if [[ ${#words[@]} -gt 0 && -n $word && (${word:0:1} == : || ${words[${#words[@]} - 1]: -1} == :) ]]; then
            words[${#words[@]} - 1]+=$word
        else
            words+=("$word")
        fi
    done
    if [[ ${#words[@]} -eq 2 ]]; then
        COMPREPLY=($(IFS=' ' && compgen -W 'check decode encode replay make serve post client layers calls keep' -- "$word"))
        return
    fi
    case ${words[1]} in
    check) operands=(SCHEMA) ;;
    decode) operands=(SCHEMA TYPE INPUT) ;;
    encode) operands=(SCHEMA TYPE INPUT) ;;
    replay) operands=(SCHEMA JOURNAL CLIENTS) ;;
    make) operands=(SCHEMA NUMBER STEPS) ;;
    serve) operands=(SCHEMA ADDRESS SESSIONS) ;;
    post) operands=(SCHEMA ADDRESS INPUT) ;;
    client) operands=(SCHEMA ADDRESS STATE 'CHANNEL ..') ;;
    layers) operands=(OLD NEW TYPE) ;;
    calls) operands=(SCHEMA INPUT) ;;
    keep) operands=(SCHEMA ADDRESS SESSIONS FILE) ;;
    *) return ;;
    esac
    operand=${operands[${#words[@]} - 3]}
    case $operand in
    SCHEMA | INPUT | JOURNAL | STATE | OLD | NEW | FILE) COMPREPLY=($(compgen -f -- "$word")) ;;
    TYPE)
        # xargs takes quotes and backslashes away, and expands nothing.
        schema=$(printf '%s\n' "${words[2]}" | xargs -n 1 printf '%s' 2>/dev/null)
        COMPREPLY=($(compgen -W "$(_tlbox_types "${schema/#~\//$HOME/}")" -- "$word"))
        ;;
    CLIENTS) COMPREPLY=($(IFS=' ' && compgen -W '1 2 3 4 5 6 7 8 9 10 11 12 13 14 15 16' -- "$word")) ;;
    esac
}

complete -o filenames -F _tlbox tlbox
