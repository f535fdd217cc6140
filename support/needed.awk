# Prints the crates that the crate `top` needs, and `top` itself, one a line and each with the crates that it
# stands on. The input is crates.txt. A crate with fewer crates below it comes first, as `rt all` takes them.
{ sub(/#.*/, "") }
/:/ {
    at = index($0, ":")
    split(substr($0, 1, at - 1), head, " ")
    libraries[head[1]] = substr($0, at + 1)
}

# Lists a crate after those below it, each once.
function list(name,    parts, count, i) {
    if (name in place) return
    count = split(libraries[name], parts, " ")
    for (i = 1; i <= count; i++) if (parts[i] in libraries) list(parts[i])
    place[name] = ++last
    order[last] = name
}

# Marks the crates below one, and counts them.
function below(name, mark,    parts, count, i, found) {
    count = split(libraries[name], parts, " ")
    for (i = 1; i <= count; i++) {
        if (!(parts[i] in libraries) || seen[parts[i]] == mark) continue
        seen[parts[i]] = mark
        found += 1 + below(parts[i], mark)
    }
    return found + 0
}

function show(name,    parts, count, i, line) {
    line = name
    count = split(libraries[name], parts, " ")
    for (i = 1; i <= count; i++) if (parts[i] in libraries) line = line " " parts[i]
    print line
}

END {
    if (!(top in libraries)) exit 1
    list(top)
    for (i = 1; i <= last; i++) height[i] = below(order[i], i)
    for (high = 0; high < last; high++)
        for (i = 1; i <= last; i++) if (height[i] == high) show(order[i])
}
