# What bash offers behind the words of bmake: options, and the targets and variables of the makefile here, which is read
# as a text: nothing is run or expanded.
_bmake_names() {
    awk -v "what=$1" -v "makefile=$2" '
function show(name) {
    if (name != "" && name !~ /[$*?{}%()]/ && name !~ /^\.[A-Z]/ && name !~ /^\.[^\/.]+\.[^\/.]+$/ && !(name in seen)) {
        seen[name] = 1
        print name
    }
}
function show_all(names,   list, n, i) {
    n = split(names, list)
    for (i = 1; i <= n; i++) show(list[i])
}
function one(line, file, depth,   name, folder) {
    if (line ~ /^\t/) return
    sub(/#.*/, "", line)
    if (line ~ /^ *\. *[-sd]?include +"[^"$]+" *$/) {
        name = line
        sub(/^[^"]*"/, "", name)
        sub(/".*/, "", name)
        folder = file
        if (!sub(/[^\/]*$/, "", folder)) folder = ""
        scan(name ~ /^\// ? name : folder name, depth + 1)
        return
    }
    while (line ~ /\$[({][^(){}]*[)}]/) sub(/\$[({][^(){}]*[)}]/, "$", line)
    if (line ~ /^[^:!=]*[:+?!]?=/) {
        name = line
        sub(/[:+?!]?=.*/, "", name)
        gsub(/[ \t]/, "", name)
        if (what == "variables") show(name)
        return
    }
    if (what == "variables" || !match(line, /[:!]/)) return
    name = substr(line, 1, RSTART - 1)
    line = substr(line, RSTART + 1)
    sub(/;.*/, "", line)
    if (name ~ /^ *\.(PHONY|MAIN) *$/) show_all(line)
    else if (name !~ /^ *\. *(if|el|endif|for|endfor|break|include|sinclude|dinclude|undef|error|warning|info|export|unexport)/) show_all(name)
}
function scan(file, depth,   line, whole) {
    if (depth > 8) return
    whole = ""
    while ((getline line < file) > 0) {
        if (substr(line, length(line)) == backslash) {
            whole = whole substr(line, 1, length(line) - 1) " "
            continue
        }
        one(whole line, file, depth)
        whole = ""
    }
    close(file)
}
BEGIN { backslash = sprintf("%c", 92); scan(makefile, 0) }
    '
}

_bmake() {
    local word=${COMP_WORDS[COMP_CWORD]} before=${COMP_WORDS[COMP_CWORD - 1]} makefile='' at IFS=$'\n'
    COMPREPLY=()
    for ((at = 1; at < COMP_CWORD; at++)); do
        case ${COMP_WORDS[at]} in
            -f) makefile=${COMP_WORDS[at + 1]} ;;
            -f?*) makefile=${COMP_WORDS[at]#-f} ;;
        esac
    done
    if [ -z "$makefile" ]; then
        makefile=makefile
        [ -e makefile ] || makefile=Makefile
    fi
    case $before in
        -f) COMPREPLY=($(compgen -f -- "$word")); return ;;
        -I | -m) COMPREPLY=($(compgen -d -- "$word")); return ;;
        -j) COMPREPLY=($(compgen -W $'1\n2\n4\n8\n16' -- "$word")); return ;;
        -D | -V | -v)
            [ ! -r "$makefile" ] || COMPREPLY=($(compgen -W "$(_bmake_names variables "$makefile")" -- "$word"))
            return
            ;;
        --generate) return ;;
    esac
    case $word in
        -*)
            COMPREPLY=($(compgen -W $'-B\n-D\n-e\n-f\n-I\n-i\n-j\n-k\n-m\n-n\n-q\n-r\n-S\n-s\n-V\n-v\n--audit\n--explain\n--generate\n--help\n--progress\n--version\n--' \
                -- "$word"))
            ;;
        *)
            [ ! -r "$makefile" ] || COMPREPLY=($(compgen -W "$(_bmake_names targets "$makefile")" -- "$word"))
            ;;
    esac
}
complete -F _bmake bmake
