# What a crate makes public. It reads the crate's root file first, and then its other sources, and prints lines of fields
# with tabs between them:
#
#     type    CRATE NAME                a public type or trait
#     variant CRATE TYPE::NAME          a variant of a public enum, or a constant of a public type
#     module  CRATE NAME                a module of the root file
#     handed  CRATE CRATE NAME          a name that the crate hands on, and the crate where it comes from
#     call    CRATE PATH OWED CLAUSES   a call, whether a page has to name it (1 or 0), and its clauses with blanks between
#
# It goes by the layout of `rt fmt`: items begin in the first column, and what stands in them behind four blanks.

function name_of(text) {
    return match(text, /^[A-Za-z_][A-Za-z0-9_]*/) ? substr(text, 1, RLENGTH) : ""
}

# What follows the parameters in angle brackets at the front of a text.
function behind_angles(text,    i, depth, c) {
    if (substr(text, 1, 1) != "<") return text
    for (i = 1; i <= length(text); i++) {
        c = substr(text, i, 1)
        if (c == "<") depth++
        if (c == ">" && --depth == 0) return substr(text, i + 1)
    }
    return ""
}

# One statement `pub use PATH;` of the root file.
function take_use(text,    prefix, names, n, i, first) {
    sub(/^pub use /, "", text)
    sub(/;.*$/, "", text)
    gsub(/[ \n]+/, " ", text)
    if (match(text, /::[{].*[}]$/)) {
        prefix = substr(text, 1, RSTART - 1)
        text = substr(text, RSTART + 3, RLENGTH - 4)
    } else {
        match(text, /::[^:]*$/)
        prefix = substr(text, 1, RSTART - 1)
        text = substr(text, RSTART + 2)
    }
    sub(/^crate::/, "", prefix)
    first = name_of(prefix)
    n = split(text, names, /, */)
    for (i = 1; i <= n; i++) {
        sub(/^ +/, "", names[i])
        sub(/.* as /, "", names[i])
        names[i] = name_of(names[i])
        if (names[i] != "") uses[++used] = first "\t" names[i]
    }
}

# After the root file: which of the used names are the crate's own.
function end_root(    i, parts) {
    for (i = 1; i <= used; i++) {
        split(uses[i], parts, "\t")
        if (parts[1] in modules) exported[parts[2]] = 1
        else print "handed\t" crate "\t" parts[1] "\t" parts[2]
    }
    rooted = 1
}

function is_public(name) {
    return program || public_module || name in exported
}

function end_call() {
    if (call != "") print "call\t" crate "\t" call "\t" owed "\t" clauses
    call = ""
}

function begin_call(path, owes) {
    end_call()
    call = path
    owed = owes && !program ? 1 : 0
    clauses = is_trait ? laws : ""
}

function add_clause(name) {
    if (name != "") clauses = clauses " " name
}

FNR == 1 {
    end_call()
    if (NR == 1) program = FILENAME ~ /main[.]rt$/
    else if (!rooted) end_root()
    module = FILENAME
    sub(/^.*\//, "", module)
    sub(/[.]rt$/, "", module)
    public_module = module in open_modules
    path = public_module ? module "::" : ""
    holder = ""
    is_enum = 0
    is_trait = 0
}

# The root file's modules and uses.
NR == FNR && /^(pub )?mod [a-z]/ {
    text = $0
    opened = sub(/^pub /, "", text)
    sub(/^mod /, "", text)
    modules[name_of(text)] = 1
    print "module\t" crate "\t" name_of(text)
    if (opened && !program) open_modules[name_of(text)] = 1
}
NR == FNR && /^pub use / { using = 1; statement = "" }
NR == FNR && using {
    statement = statement $0 "\n"
    if (/;/) {
        using = 0
        take_use(statement)
    }
    next
}

# The uses of a public module are in it.
public_module && /^pub use / {
    text = $0
    sub(/;.*/, "", text)
    sub(/^.*::[{]?/, "", text)
    sub(/[}].*/, "", text)
    n = split(text, parts, /, */)
    for (i = 1; i <= n; i++) print "type\t" crate "\t" path parts[i]
}

/^[}]/ {
    end_call()
    holder = ""
    is_enum = 0
    is_trait = 0
    laws = ""
}

/^pub (struct|enum|trait|type) / {
    end_call()
    name = name_of($3)
    holder = ""
    laws = ""
    is_enum = $2 == "enum"
    is_trait = $2 == "trait"
    if (is_public(name)) {
        print "type\t" crate "\t" name
        if (path != "") print "type\t" crate "\t" path name
        if (is_enum || is_trait) holder = name
    } else {
        is_enum = 0
        is_trait = 0
    }
}

# The head of an impl may take several lines.
/^impl/ {
    end_call()
    heading = ""
    in_heading = 1
}
in_heading {
    text = $0
    sub(/^ +/, "", text)
    heading = heading text (text ~ /,$/ ? " " : "")
    if (!/[{]$/) next
    in_heading = 0
    text = heading
    sub(/^impl/, "", text)
    text = behind_angles(text)
    sub(/^ +/, "", text)
    of_trait = match(text, / for /)
    if (of_trait) text = substr(text, RSTART + 5)
    sub(/^&('[a-z]+ )?(mut )?/, "", text)
    sub(/^[a-z_]+::/, "", text)
    name = name_of(text)
    holder = is_public(name) ? name : ""
}

/^pub (const )?fn / {
    text = $0
    sub(/^pub (const )?fn /, "", text)
    name = name_of(text)
    holder = ""
    if (is_public(name)) begin_call(path name, 1)
    else end_call()
}

/^fn / { end_call() }

# Calls, laws, variants and constants within an item.
holder != "" && is_enum && /^    [A-Z]/ {
    text = $0
    sub(/^ +/, "", text)
    print "variant\t" crate "\t" holder "::" name_of(text)
}
holder != "" && /^    pub const [A-Z]/ {
    text = $0
    sub(/^ +pub const /, "", text)
    print "variant\t" crate "\t" holder "::" name_of(text)
}
holder != "" && is_trait && /^    ghost [A-Za-z_]+:/ {
    text = $0
    sub(/^ +ghost /, "", text)
    end_call()
    laws = laws " " name_of(text)
    print "call\t" crate "\t" holder "::" name_of(text) "\t0\t" name_of(text)
}
holder != "" && !is_trait && /^    ghost [A-Za-z_]+ = / {
    text = $0
    sub(/^ +ghost /, "", text)
    end_call()
    print "call\t" crate "\t" holder "::" name_of(text) "\t0\t" name_of(text)
}
holder != "" && /^    (pub )?(const )?fn / {
    text = $0
    opened = sub(/^ +pub /, "", text)
    sub(/^ +/, "", text)
    sub(/^(const )?fn /, "", text)
    if (is_trait) begin_call(holder "::" name_of(text), 1)
    else if (of_trait) begin_call(holder "::" name_of(text), 0)
    else if (opened) begin_call(holder "::" name_of(text), 1)
    else end_call()
}
holder != "" && /^    pub[(]/ { end_call() }

call != "" && /^ +(ensures|requires)[*]? / {
    text = $0
    sub(/^ +(ensures|requires)[*]? /, "", text)
    add_clause(name_of(text))
}

END {
    if (!rooted) end_root()
    end_call()
}
