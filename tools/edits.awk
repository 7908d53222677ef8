# Reads must-fail edits (crates/NAME/must-fail/LABEL.edit, and crates/NAME/further-edits) as rt does and prints what is wrong with each, without proving anything:
# a file that is not there or is a proof (a broken proof shows nothing), an `old:` text that does not stand in it exactly once or is not changed,
# no pair at all, and a line that rt passes over though it is no comment, as the second line of a text.

function fault(message) { print FILENAME ": " message }

# The text of the crate's file, or the word "none" for a file that is not there: each text ends in a newline, so no text is that word.
function text_of(path,    line, all, got) {
    all = ""
    while ((got = (getline line < path)) > 0) all = all line "\n"
    close(path)
    return got < 0 ? "none" : all
}

# Replaces `old` by `new` in the crate's file as it stands after the pairs before; the next pair may speak of the result.
function replace(    at, behind) {
    at = old == "" ? 0 : index(text[file], old)
    behind = substr(text[file], at + length(old))
    if (!at) fault("its `old:` text is not in " file ": " old)
    else if (old == new) fault("its `new:` text is its `old:` text: " old)
    else if (index(behind, old)) fault("its `old:` text is in " file " more than once: " old)
    else text[file] = substr(text[file], 1, at - 1) new behind
}

FNR == 1 {
    crate = FILENAME
    sub(/(must-fail|further-edits)\/.*/, "", crate)
    file = old = ""
    split("", text)
}
/^file: / {
    file = substr($0, 7)
    if (file !~ /^(src|specs)\//) fault("it edits " file ", and only an edit of src/ or specs/ shows anything")
    if (!(file in text)) text[file] = text_of(crate file)
    if (text[file] == "none") fault("there is no file " crate file)
}
/^old: / { old = substr($0, 6) }
/^new:/ {
    new = substr($0, 5)
    sub(/^ /, "", new)
    if (file == "") fault("a pair has no `file:` before it")
    else if (text[file] != "none") replace()
    old = ""
    pairs[FILENAME]++
}
!/^(file: |old: |new:|#|$)/ { fault("rt passes over its line " FNR ": " $0) }
END { for (i = 1; i < ARGC; i++) if (!pairs[ARGV[i]]) print ARGV[i] ": it has no `old:` and `new:` pair" }
