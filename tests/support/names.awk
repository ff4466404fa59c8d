# The names in docs/CLAIMS.md, for tests/claims, which hands in first the files that define them. A name `area.Formed.WellFormed`
# is of a crate, a file of its specs/ or proofs/ and what is defined there; `search.ebf.Table.ebf` has a folder too. A name alone
# is of the file named before it in its row. Prints each name that is not there, and how many were looked for.
FNR == 1 {
    type = ""
    place = FILENAME
    sub(/^crates\//, "", place); sub(/\/(specs|proofs|src)\//, ".", place); sub(/\.(antt|rt)$/, "", place); gsub(/\//, ".", place)
    file = place
    files[file]
    crate = file; sub(/\..*/, "", crate); crates[crate]
    if (FILENAME ~ /instances\/proofs/) { instance = file; sub(/.*\./, "", instance); instances[instance] }
}

# A definition or law begins its line or is public, and a field is public; what a proof defines for itself is neither.
FILENAME ~ /antt$/ {
    type = sub(/^ *pub (record|data) /, "")
    if (type || ((sub(/^ *(unfoldable |abbrev )?pub /, "") || /^[^ ]/) && $2 == ":")) defined[file "." $1]
    next
}

# functions, as code names them; a method behind its type
FILENAME ~ /rt$/ {
    if (/^impl/) {
        type = $0; sub(/^impl(<[^>]*>)? /, "", type); sub(/ \{.*/, "", type); sub(/.* for /, "", type); sub(/<.*/, "", type)
    }
    if (/^}/) type = ""
    if (sub(/^(    )?(pub |pub\(crate\) |extern "C" )*fn /, "")) {
        sub(/[^a-zA-Z0-9_].*/, "")
        module = file; sub(/\.(lib|main)$/, "", module); gsub(/\./, "::", module)
        functions[module "::" (type == "" ? "" : type "::") $0]
    }
    next
}

function stands(name) {
    if (name in crates || name in functions) return 1
    if (name ~ /::/) return 0
    if (name ~ /\//) return !system("test -e '" name "' || test -e 'crates/" name "'")
    if (name in files) { before = name; return 1 }
    if (name in defined) { before = name; sub(/\.[^.]*$/, "", before); return 1 }
    return (before "." name) in defined
}
function check(text,    name) {
    for (; match(text, /`[^`]*`/); text = substr(text, RSTART + RLENGTH)) {
        name = substr(text, RSTART + 1, RLENGTH - 2)
        if (!stands(name)) print "line " FNR " names `" name "`, which is not there"
        count++
    }
}
# the last column's capital names are files of instances
function tried(text,    word, n, i) {
    n = split(text, word, /[^A-Za-z]+/)
    for (i = 1; i <= n; i++) if (word[i] ~ /^[A-Z]/) {
        if (!(word[i] in instances)) print "line " FNR " is tried by " word[i] ", which is no file of instances"
        count++
    }
}
/^## / { forms = /^## Forms/ }
/^\| / && !/^\| (sentence|place) / && !forms {
    before = ""
    n = split($0, cell, / \| |^\| | \|$/)
    check(cell[3]); check(cell[4]); check(cell[5]); tried(cell[5])
}
END { print count }
