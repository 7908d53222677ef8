# Reads a file of a library, laid out, and prints what hands on the functions that it exports:
#   awk -v within=CRATE::MODULE -f c-faces.awk FILE
# The head's comment and the imports stay as they are, and so do of each exported function the comment, the attributes
# but for those that are for its proof, the signature and the clauses; its body becomes the call of it. All else is left
# out.

# The parameters' names, with commas between them, of a signature that begins at its bracket.
function names_in(signature,    depth, i, c, name, names, is_name) {
    is_name = 1
    for (i = 1; i <= length(signature); i++) {
        c = substr(signature, i, 1)
        if (c ~ /[])}>]/ && --depth == 0 && c == ")") return names
        if (c ~ /[[({<]/ && ++depth == 1) continue
        if (depth == 1 && c == ":" && is_name) {
            sub(/^[ \n]*(mut )?/, "", name)
            names = names (names == "" ? "" : ", ") name
            is_name = 0
        } else if (depth == 1 && c == ",") {
            is_name = 1
            name = ""
        } else if (is_name) name = name c
    }
}

# A block is what stands between empty lines: imports, or a function.
function end_of_block(    i, head, call) {
    if (exported) {
        head = block
        sub(/^.*extern "C" fn /, "", head)
        call = head
        sub(/\(.*/, "", call)
        print ""
        printf "%s{\n    %s::%s(%s)\n}\n", block, within, call, names_in(substr(head, length(call) + 1))
    } else if (block != "" && !other) printf "%s%s", shown++ ? "\n" : "", block
    block = ""
    exported = other = body = 0
}

body {
    body = $0 != "}"
    next
}
/^$/ {
    end_of_block()
    next
}
/^#\[tactic\(/ { next }
/^((pub|\)).* )?{}?$/ {
    body = /{$/
    sub(/ ?{}?$/, "")
    if ($0 != "") block = block $0 "\n"
    next
}
!/^(\/\/|(ghost )?use )/ { other = 1 }
/^#\[unsafe\(no_mangle\)\]$/ { exported = 1 }
{ block = block $0 "\n" }
END { end_of_block() }
