# Reads docs/COMMANDS.md, from which help, the manual page and the completion are made, and prints by `as`:
#   commands   a line for each command: its name, a tab, the first sentence on it
#   overview   the same for a terminal
#   options    a line for each command and option: the command, the option, what its value is (flag, FILE, N, A|B..)
#   section    the text of one section for a terminal: that of the command `wanted`, or of the heading `wanted`;
#              with `only` as items, its list alone
#   manual     the whole text in man format
# A command's section has the heading ## `NAME [--OPTION VALUE].. FILES`. A list item on an option is
# - `--OPTION VALUE`: text. No other marks are known than paragraphs, lists, tables, code and **bold**.

# A link reads as its own text.
function unlinked(text,    link) {
    while (match(text, /\[[^]]*\]\([^)]*\)/)) {
        link = substr(text, RSTART, RLENGTH)
        sub(/\]\(.*/, "", link)
        text = substr(text, 1, RSTART - 1) substr(link, 2) substr(text, RSTART + RLENGTH)
    }
    return text
}

function plain(text) {
    text = unlinked(text)
    gsub(/[`]|\*\*/, "", text)
    return text
}

# Prints words in lines of at most 78 bytes: the first one after `first`, the others after `rest`.
function fill(text, first, rest,    words, count, i, line) {
    count = split(plain(text), words, " ")
    line = first words[1]
    for (i = 2; i <= count; i++)
        if (length(line) + 1 + length(words[i]) <= 78) line = line " " words[i]
        else { print line; line = rest words[i] }
    print line
}

function troff(text,    out, at, is_code) {
    text = unlinked(text)
    gsub(/\\/, "\\e", text)
    gsub(/-/, "\\-", text)
    gsub(/\*\*/, "", text)
    out = ""
    while ((at = index(text, "`")) > 0) {
        out = out substr(text, 1, at - 1) (is_code ? "\\fR" : "\\fB")
        is_code = !is_code
        text = substr(text, at + 1)
    }
    text = out text
    return text ~ /^[.\047]/ ? "\\&" text : text
}

function item_head(text,    at) {
    at = index(text, "`: ")
    return substr(text, 1, 1) == "`" && at > 0 ? substr(text, 2, at - 2) : ""
}

function item_text(text) {
    return substr(text, index(text, "`: ") + 3)
}

# What an option's item or synopsis says of its value.
function option(of, text,    parts, count) {
    count = split(text, parts, " ")
    if (parts[1] !~ /^--[a-z]/ || (of, parts[1]) in told) return
    told[of, parts[1]] = 1
    print of " " parts[1] " " (count > 1 ? parts[2] : "flag")
}

function synopsis_options(text,    inner) {
    while (match(text, /\[--[^]]*\]/)) {
        inner = substr(text, RSTART + 1, RLENGTH - 2)
        text = substr(text, RSTART + RLENGTH)
        option(name, inner)
    }
}

# The options of every command, but of the one that their heading tells after `but`.
function shared_options(    i) {
    for (i = 1; i <= shared_count; i++) if (name != spared) option(name, shared[i])
}

function heading(text) {
    flush()
    is_command = text ~ /^`[a-z]/
    title = is_command ? substr(text, 2, length(text) - 2) : text
    name = title
    sub(/ .*/, "", name)
    if (!is_command) name = ""
    is_first = 1
    is_in = wanted == (is_command ? name : title)
    is_shared = title ~ /^Options of every command/
    if (is_shared && match(title, / but [a-z]+$/)) spared = substr(title, RSTART + 5)
    if (as == "options" && is_command) { shared_options(); synopsis_options(title) }
    if (as == "section" && is_in && is_command) { fill("fitsowar " title, "", "    "); is_spaced = 1 }
    if (as == "manual") {
        if (is_command) print ".SS \"" troff(title) "\""
        else print ".SH \"" toupper(troff(title)) "\""
    }
}

function paragraph(text,    first) {
    first = plain(text)
    if (match(first, /\. [A-Z]/)) first = substr(first, 1, RSTART)
    if (as == "commands" && is_command && is_first) print name "\t" first
    if (as == "overview" && is_command && is_first) fill(first, sprintf("  %-10s", name), "            ")
    if (as == "section" && is_in && !only) { space(); fill(text, "", "") }
    if (as == "manual") { print ".PP"; print troff(text) }
    is_first = 0
}

function item(text,    head) {
    head = item_head(text)
    if (as == "options" && is_command) option(name, head)
    if (is_shared) shared[++shared_count] = head
    if (as == "section" && is_in) {
        if (!was_item) space()
        if (head != "") { print "  " head; fill(item_text(text), "      ", "      ") }
        else fill(text, "  - ", "    ")
    }
    if (as == "manual") {
        if (head != "") { print ".TP"; print troff("`" head "`"); print troff(item_text(text)) }
        else { print ".IP \\(bu 2"; print troff(text) }
    }
}

function row(line,    cells, count, head) {
    if (line ~ /^\|-/ || !was_row) { was_row = 1; return }
    count = split(substr(line, 3, length(line) - 4), cells, / \| /)
    if (as == "section" && is_in) {
        if (count == 2) fill(cells[2], sprintf("  %-2s  ", cells[1]), "      ")
        else { print "  " plain(cells[1]); fill(cells[3] " (" cells[2] ")", "      ", "      ") }
    }
    if (as == "manual") {
        print ".TP"
        print troff(cells[1])
        print count == 2 ? troff(cells[2]) : "(" troff(cells[2]) ") " troff(cells[3])
    }
}

function code(line) {
    if (as == "section" && is_in && !only) print (line == "" ? "" : "    " line)
    if (as == "manual") {
        gsub(/\\/, "\\e", line)
        gsub(/-/, "\\-", line)
        print (line ~ /^[.\047]/ ? "\\&" line : line)
    }
}

function space() {
    if (is_spaced) print ""
    is_spaced = 1
}

function flush(    was) {
    was = kind
    if (kind == "paragraph") paragraph(text)
    if (kind == "item") item(text)
    was_item = was == "item"
    kind = ""
    text = ""
}

/^```/ {
    flush()
    is_code = !is_code
    if (as == "section" && is_in && is_code && !only) space()
    if (as == "manual") print is_code ? ".PP\n.RS 4\n.nf" : ".fi\n.RE"
    next
}
is_code { code($0); next }
/^# / { next }
/^## / { heading(substr($0, 4)); next }
/^\|/ {
    flush()
    if (!was_row && as == "section" && is_in) space()
    row($0)
    next
}
{ was_row = 0 }
/^$/ { flush(); next }
/^- / { flush(); kind = "item"; text = substr($0, 3); next }
{
    if (kind == "") kind = "paragraph"
    sub(/^ +/, "")
    text = text (text == "" ? "" : " ") $0
}
END { flush() }
