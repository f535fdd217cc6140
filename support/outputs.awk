# Prints a text in Markdown as it is with the outputs that its commands have now. In a block of code a line that
# begins with "$ " is a command, and the lines up to the next one are its output. It runs in the current folder.
/^```/ { is_code = !is_code; has_command = 0; print; next }
is_code && /^\$ / {
    if (has_command) print ""
    has_command = 1
    print
    fflush()
    system("exec 2>&1 </dev/null; " substr($0, 3))
    fflush()
    next
}
!has_command { print }
