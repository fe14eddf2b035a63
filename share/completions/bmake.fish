# What fish offers behind the words of bmake: options, and the targets and variables of the makefile here, which is read
# as a text: nothing is run or expanded.
function __bmake_names
    set -l makefile
    set -l words (commandline -opc)
    for at in (seq (count $words))
        switch $words[$at]
            case -f
                set -l next (math $at + 1)
                set -q words[$next]; and set makefile $words[$next]
            case '-f?*' '-f*'
                set makefile (string sub -s 3 -- $words[$at])
        end
    end
    if test -z "$makefile"
        set makefile makefile
        test -e makefile; or set makefile Makefile
    end
    test -r "$makefile"; or return
    awk -v "what=$argv[1]" -v "makefile=$makefile" '
function show(name) {
    if (name != "" && name !~ /[$*?{}%()]/ && name !~ /^\.[A-Z]/ && name !~ /^\.[^\/.]+\.[^\/.]+$/ && !(name in seen)) {
        seen[name] = 1
        print name
    }
}
function show_all(names,   list, n, i) {
    n = split(names, list)
    for (i = 1; i <= n; i++) show(list[i])
}
function one(line, file, depth,   name, folder) {
    if (line ~ /^\t/) return
    sub(/#.*/, "", line)
    if (line ~ /^ *\. *[-sd]?include +"[^"$]+" *$/) {
        name = line
        sub(/^[^"]*"/, "", name)
        sub(/".*/, "", name)
        folder = file
        if (!sub(/[^\/]*$/, "", folder)) folder = ""
        scan(name ~ /^\// ? name : folder name, depth + 1)
        return
    }
    while (line ~ /\$[({][^(){}]*[)}]/) sub(/\$[({][^(){}]*[)}]/, "$", line)
    if (line ~ /^[^:!=]*[:+?!]?=/) {
        name = line
        sub(/[:+?!]?=.*/, "", name)
        gsub(/[ \t]/, "", name)
        if (what == "variables") show(name)
        return
    }
    if (what == "variables" || !match(line, /[:!]/)) return
    name = substr(line, 1, RSTART - 1)
    line = substr(line, RSTART + 1)
    sub(/;.*/, "", line)
    if (name ~ /^ *\.(PHONY|MAIN) *$/) show_all(line)
    else if (name !~ /^ *\. *(if|el|endif|for|endfor|break|include|sinclude|dinclude|undef|error|warning|info|export|unexport)/) show_all(name)
}
function scan(file, depth,   line, whole) {
    if (depth > 8) return
    whole = ""
    while ((getline line < file) > 0) {
        if (substr(line, length(line)) == backslash) {
            whole = whole substr(line, 1, length(line) - 1) " "
            continue
        }
        one(whole line, file, depth)
        whole = ""
    }
    close(file)
}
BEGIN { backslash = sprintf("%c", 92); scan(makefile, 0) }
    '
end

complete -c bmake -f
complete -c bmake -a '(__bmake_names targets)' -d target
complete -c bmake -s B -d 'run one job at a time'
complete -c bmake -s D -x -a '(__bmake_names variables)' -d 'set this variable to 1'
complete -c bmake -s e -d 'the environment stands above makefiles'
complete -c bmake -s f -r -F -d 'read this makefile'
complete -c bmake -s I -x -a '(__fish_complete_directories)' -d 'seek makefiles in quotes here'
complete -c bmake -s i -d 'pass over commands that fail'
complete -c bmake -s j -x -a '1 2 4 8 16' -d 'run up to so many jobs'
complete -c bmake -s k -d 'after a failure make what does not need it'
complete -c bmake -s m -x -a '(__fish_complete_directories)' -d 'seek makefiles in angle brackets here'
complete -c bmake -s n -d 'print the commands that would be run'
complete -c bmake -s q -d 'tell by the status whether all is up to date'
complete -c bmake -s r -d 'without effect'
complete -c bmake -s S -d 'stop at the first failure'
complete -c bmake -s s -d 'do not print commands'
complete -c bmake -s V -x -a '(__bmake_names variables)' -d 'print this raw value'
complete -c bmake -s v -x -a '(__bmake_names variables)' -d 'print this value'
complete -c bmake -l audit -d 'tell what breaches what a build stands on'
complete -c bmake -l explain -d 'tell why targets are out of date'
complete -c bmake -l progress -d 'show how far the build has come'
complete -c bmake -l generate -x -d 'build a project of so many targets in memory'
complete -c bmake -l help -d 'print the options'
complete -c bmake -l version -d 'print the version'
