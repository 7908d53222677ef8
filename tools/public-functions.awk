# Reads .rt files token by token and finds the public functions: those that another crate or another language can call.
# Prints each that has a `requires`; exit 1 where there is one, or where a file ends inside a brace, a text or a comment.
# With -v list=1: prints instead a line `call FILE NAME` for every public function, and `export FILE NAME` for one that another language can call.
# What stands in the braces of a clause and in a `ghost use` is antt, the prover's language, and is passed over by antt's own rules.

function fault(line, message) {
    if (!list) print file ":" line ": " message
    faults = 1
}

# ---- what the tokens mean

# What the tokens in front of `fn`, since the item's start, make it: an `export`, which another language can call, a `call`, which another crate can, or neither.
function callable(    word, n, i, as) {
    n = split(before, word, " ")
    for (i = 1; i <= n; i++) {
        if (word[i] == "pub" && word[i + 1] != "(") as = "call"
        if (word[i] == "extern" || word[i] == "no_mangle" || word[i] == "export_name") return "export"
    }
    return as
}

function end_of_signature() {
    if (public && list) print public, file, name
    if (public && asked) fault(asked, "the public function `" name "` has a `requires`")
    signature = 0
    before = ""
}

# Between `fn` and the body's brace. A clause is its keyword, perhaps a name, and antt in braces.
function signature_token(t) {
    if (name == "") {
        if (t ~ /^[A-Za-z_]/) name = t
        else signature = 0 # a type, as fn(u8)
    } else if (t == "(" || t == "[") inside++
    else if (t == ")" || t == "]") inside--
    else if (inside > 0) return
    else if (t == "requires" || t == "ensures" || t == "ghost") {
        clause = 1
        if (t == "requires" && !asked) asked = FNR
    } else if (t == "{" && clause) {
        clause = 0
        mode = "clause"
        depth = 1
    } else if (t == "{") {
        end_of_signature()
        braces++
    } else if (t == ";") end_of_signature()
    else if (t == "}") unopened()
}

function unopened() { fault(FNR, "a closing brace that nothing opened") }

function token(t) {
    if (signature) signature_token(t)
    else if (t == "fn") {
        signature = 1
        public = callable()
        name = ""
        asked = inside = clause = 0
    } else if (t == "use" && last == "ghost") mode = "ghost use"
    else if (t == ";" || t == "{" || t == "}") {
        before = ""
        if (t == "{") braces++
        if (t == "}" && --braces < 0) {
            unopened()
            braces = 0
        }
    } else before = before t " "
    last = t
}

# ---- how a line is cut into tokens: `rest` is what is left of it

function skip(n) { rest = substr(rest, n + 1) }
function starts(s) { return substr(rest, 1, length(s)) == s }

# Passes over the rest of a text, to its closing quote. A `\` takes the next character along, but for a raw text.
function in_text() {
    if (raw ? match(rest, /^[^"]*"/) : match(rest, /^([^"\\]|\\.)*"/)) {
        skip(RLENGTH)
        text = 0
    } else rest = ""
}
function open_text(length_of_mark, is_raw) {
    skip(length_of_mark)
    text = 1
    raw = is_raw
}

# Passes over the rest of a comment, which may hold others.
function in_comment(    open_mark, close_mark) {
    open_mark = mode == "rattle" ? "/*" : "{-"
    close_mark = mode == "rattle" ? "*/" : "-}"
    while (rest != "" && comment > 0) {
        if (starts(open_mark)) { comment++; skip(2) }
        else if (starts(close_mark)) { comment--; skip(2) }
        else skip(1)
    }
}
function open_comment() {
    skip(2)
    comment = 1
}

function rattle_step(    word) {
    if (match(rest, /^[ \t]+/)) skip(RLENGTH)
    else if (starts("//")) rest = ""
    else if (starts("/*")) open_comment()
    else if (match(rest, byte)) skip(RLENGTH)
    else if (match(rest, /^'[A-Za-z_][A-Za-z0-9_]*/)) skip(RLENGTH) # a lifetime
    else if (match(rest, /^b?r"/)) open_text(RLENGTH, 1)
    else if (match(rest, /^b?"/)) open_text(RLENGTH, 0)
    else if (match(rest, /^[A-Za-z0-9_]+/)) {
        word = substr(rest, 1, RLENGTH)
        skip(RLENGTH)
        token(word)
    } else {
        word = substr(rest, 1, 1)
        skip(1)
        token(word)
    }
}

# In ⟦ .. ⟧ a clause holds Rattle: its bytes and texts may hold a brace.
function bracket_step() {
    if (starts("⟧")) {
        skip(length("⟧"))
        bracket = 0
    } else if (match(rest, byte)) skip(RLENGTH)
    else if (match(rest, /^b?"/)) open_text(RLENGTH, 0)
    else skip(1)
}

# A name is a run without spaces, braces and a few others, so `--` opens a comment only where a name could start.
function antt_step(    run) {
    if (match(rest, /^[ \t]+/)) skip(RLENGTH)
    else if (starts("--")) rest = ""
    else if (starts("{-")) open_comment()
    else if (starts("\"")) open_text(1, 0)
    else if (starts("«") && index(rest, "»")) skip(index(rest, "»")) # an escaped name
    else if (starts("⟦")) {
        skip(length("⟦"))
        bracket = 1
    } else if (mode == "ghost use" && starts(";")) {
        skip(1)
        mode = "rattle"
        before = ""
    } else if (mode == "clause" && starts("{")) {
        skip(1)
        depth++
    } else if (mode == "clause" && starts("}")) {
        skip(1)
        if (--depth == 0) mode = "rattle"
    } else if (match(rest, /^[^ \t(){}.;,@"]+/)) {
        run = index(substr(rest, 1, RLENGTH), "⟦")
        skip(run ? run - 1 : RLENGTH)
    } else skip(1)
}

# ---- files

function open_file() {
    file = FILENAME
    mode = "rattle"
    before = last = ""
    text = comment = bracket = signature = braces = 0
}
function close_file() {
    if (file != "" && (mode != "rattle" || text || comment || bracket || signature || braces)) fault(lines, "the file ends inside a brace, a text or a comment")
}

BEGIN { byte = "^b?'(\\\\x[0-9A-Fa-f][0-9A-Fa-f]|\\\\.|[^\\\\'])'" } # as b'a', b'\n', b'\x7f'
FNR == 1 {
    close_file()
    open_file()
}
{
    lines = FNR
    rest = $0
    sub(/\r$/, "", rest)
    while (rest != "") {
        if (text) in_text()
        else if (comment) in_comment()
        else if (mode == "rattle") rattle_step()
        else if (bracket) bracket_step()
        else antt_step()
    }
}
END {
    close_file()
    exit faults
}
