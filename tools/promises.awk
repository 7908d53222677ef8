# Holds docs/PROMISES.md to the sources, and prints what does not fit: a public function without a line in its crate's section, a line
# for a function that is not there, an empty cell, a line that does not name two must-fail edits and a theorem of one answer that are there.
# The section of a crate that exports has a line for each exported function, with the call that it is and how its answer is told; a call that is not exported has such a line too, in any
# section, with the word `none` for the function and the reason. Each public call stands in these lines once, but for those of `answers` and the crates named `.._answers`, which tell.
# Reads lines `crate NAME`, `call CRATE FUNCTION`, `export CRATE FUNCTION`, `edit CRATE LABEL`, `further CRATE LABEL` (an edit that the gate leaves out) and `theorem NAME`, then the document (-v document=..): a section `## CRATE` for each crate, and
# in it a table of calls | definition | promise | one answer | must-fail edits | runs.

function fault(message) { print "docs/PROMISES.md: " message }

# The name of a function as it is written, `Type::name(..) -> ..`, without its type.
function name_in(cell) {
    sub(/^[ \t]*`/, "", cell)
    sub(/\(.*/, "", cell)
    sub(/.*::/, "", cell)
    return cell
}

# How many edits of its own crate a cell names that the gate tries; one that is not there, there or in another crate (`CRATE/LABEL`), is a fault.
function edits_in(cell,    part, n, i, count, of, label) {
    n = split(cell, part, "`")
    for (i = 2; i <= n; i += 2) {
        of = section
        label = part[i]
        if (split(part[i], path, "/") == 2) { of = path[1]; label = path[2] }
        if (("edit " of " " label) in there) count += of == section
        else if (!(("further " of " " label) in there)) fault("there is no crates/" of "/must-fail/" label ".edit, which `" call "` names")
    }
    return count
}

# Whether a cell begins with the name of a theorem of one answer.
function is_settled(cell,    part) {
    return split(cell, part, "`") >= 3 && ("theorem " part[2]) in there
}

# A line of the exported functions: function | call | told as.
function exported_line(    part, path) {
    n = split($0, cell, "|")
    if (n != 5) fault("a line of exported functions has " n - 2 " cells, and not 3: " $0)
    for (i = 2; i < n; i++) if (cell[i] ~ /^[ \t]*$/) fault("a cell of an exported function is empty: " $0)
    split(cell[2], part, "`")
    if (cell[2] ~ /`/) {
        if (("export " section " " part[2]) in there) promised["export " section " " part[2]]
        else fault("crates/" section " exports no `" part[2] "`")
        if (!(("theorem " part[2]) in there)) fault("`" part[2] "` has no theorem of one answer")
    }
    split(cell[3], part, "`")
    split(part[2], path, "::")
    call = "call " path[1] " " path[2]
    if (!(call in there)) fault("there is no public function `" part[2] "` to export")
    else if (call in exported) fault("`" part[2] "` is exported twice")
    exported[call]
}

FILENAME != document {
    there[$0]
    if ($1 == "export") {
        if ($3 in names) fault("`" $3 "` is exported by more than one crate")
        names[$3]
        exports[$2]
    }
    next
}
/^## / { section = $2 }
(section in exports && /^\| `/) || /^\| none / {
    exported_line()
    next
}
/^\| `/ && ("crate " section) in there {
    n = split($0, cell, "|")
    call = name_in(cell[2])
    if (n != 8) fault("the line of `" call "` has " n - 2 " cells, and not 6")
    for (i = 2; i < n; i++) if (cell[i] ~ /^[ \t]*$/) fault("a cell of `" call "` is empty")
    if (("call " section " " call) in there) promised["call " section " " call]
    else fault("crates/" section " has no public function `" call "`")
    if (!is_settled(cell[5])) fault("`" call "` names no theorem of one answer")
    if (edits_in(cell[6]) < 2) fault("`" call "` names fewer than two must-fail edits")
}
END {
    for (one in there) {
        split(one, word, " ")
        if (word[1] ~ /^(call|export)$/ && !(one in promised)) fault("no line for `" word[3] "` of crates/" word[2])
        if (word[1] == "call" && word[2] !~ /^([a-z]+_)?answers$/ && !(one in exported)) fault("`" word[3] "` of crates/" word[2] " is not exported")
    }
}
