# Names that a file brings by `use` or `ghost use` and does not use, a line each: awk -f imports.awk FILE ..
# What `pub use` brings is handed on. An operator, as ◌≡◌, is used where each of its parts is. Aliases, as in
# `use M as m`, count as names.

function report(    name, part, parts, n, used) {
    for (name in brought) {
        n = split(name, parts, /◌/)
        used = 1
        if (name in word) continue
        if (n < 2) used = 0
        for (part = 1; part <= n; part++) if (parts[part] != "" && !(parts[part] in word)) used = 0
        if (!used) printf "%s brings %s and does not use it\n", file, name
    }
    delete brought
    delete word
}

function bring(list,    names, n, i) {
    n = split(list, names, /, */)
    for (i = 1; i <= n; i++) {
        sub(/^.* as /, "", names[i])
        brought[names[i]] = 1
    }
}

FNR == 1 { if (file != "") report(); file = FILENAME }

/^(ghost )?use .*\.\{.*\};?$/ {
    list = $0
    sub(/^.*\.\{/, "", list)
    sub(/\};?$/, "", list)
    bring(list)
    next
}

/^(ghost )?use [^:]* as [^ ]+$/ {
    sub(/;$/, "", $NF)
    bring($NF)
    next
}

/^(pub )?use / { next }

{
    text = $0
    sub(/^ *(--|\/\/).*/, "", text)
    n = split(text, pieces, /[ \t(){};,.]/)
    for (i = 1; i <= n; i++) word[pieces[i]] = 1
}

END { if (file != "") report() }
