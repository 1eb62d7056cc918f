# What the pages name, against what stands. Its variables name files: `surface` (the lines that surface.awk prints), `pages`
# (the pages, a line each), `code` (all sources, each behind a line of the byte 1), and `links`, to which it writes
# the linked files, each behind its place.

function say(text) {
    print page ":" line_number ": " text
    failed = 1
}

function last_of(path) {
    sub(/^.*::/, "", path)
    return path
}

# Keeps a call under a name by which pages can cite it.
function keep(crate, name, clauses) {
    stands[crate, name] = 1
    stands["", name] = 1
    clauses_of[crate, name] = clauses_of[crate, name] clauses " "
    clauses_of["", name] = clauses_of["", name] clauses " "
}

function read_surface(    row, f, kind, crate, holder, n, i, names) {
    while ((getline row <surface) > 0) {
        split(row, f, "\t")
        kind = f[1]
        crate = f[2]
        if (kind == "crate") {
            crates[crate] = 1
            libraries[crate] = " " f[3] " "
            n = split(f[3], names, " ")
            for (i = 1; i <= n; i++) known[names[i]] = 1
        } else if (kind == "type" || kind == "variant" || kind == "module") {
            keep(crate, f[3], "")
        } else if (kind == "file") {
            files[f[3]] = 1
        } else if (kind == "handed") {
            # Calls of a handed-on type or function are cited as those of the crate that hands them on.
            handed[++handed_count] = crate "\t" f[3] "\t" f[4]
        } else if (kind == "call") {
            # A type's name and a bare name stand for all calls that they may mean.
            keep(crate, f[3], f[5])
            keep(crate, last_of(f[3]), f[5])
            if (match(f[3], /::[^:]*$/)) keep(crate, substr(f[3], 1, RSTART - 1), f[5])
            if (f[4] == 1) {
                owed[++owed_count] = crate "\t" f[3]
                alike[crate, last_of(f[3])]++
            }
        }
        rows[++row_count] = row
    }
    close(surface)
    for (i = 1; i <= handed_count; i++) hand_on(handed[i])
}

function hand_on(entry,    to, i, f, n) {
    split(entry, to, "\t")
    for (i = 1; i <= row_count; i++) {
        n = split(rows[i], f, "\t")
        if (f[2] != to[2] || f[1] == "crate") continue
        if (f[3] != to[3] && index(f[3], to[3] "::") != 1) continue
        keep(to[1], f[3], n > 4 ? f[5] : "")
        if (n > 4) {
            keep(to[1], last_of(f[3]), f[5])
            keep(to[1], to[3], f[5])
        }
    }
}

function read_code(    row) {
    while ((getline row <code) > 0) sources[++source_count] = row
    close(code)
}

# The names in the pairs of backticks of a text, `A::{b, c}` as two, into `found`; `behind` has what follows each.
function names_in(text, found, behind,    count, name, prefix, inner, n, i, parts, rest) {
    count = 0
    while (match(text, /`[^`]*`/)) {
        name = substr(text, RSTART + 1, RLENGTH - 2)
        text = substr(text, RSTART + RLENGTH)
        rest = text
        if (match(name, /::[{][^{}]*[}]$/)) {
            prefix = substr(name, 1, RSTART + 1)
            inner = substr(name, RSTART + 3, RLENGTH - 4)
            n = split(inner, parts, /, */)
            for (i = 1; i <= n; i++) {
                found[++count] = prefix parts[i]
                behind[count] = rest
            }
            continue
        }
        sub(/[(].*$/, "", name)
        sub(/^(fn|trait|type|struct|enum) /, "", name)
        while (sub(/<[^<>]*>/, "", name)) {}
        found[++count] = name
        behind[count] = rest
    }
    return count
}

# The crate in which a name is found, or "" for any, or "-" for none. The page's or heading's crate comes first, and a
# path may begin with a crate's name.
function home_of(name,    first, rest) {
    if (own != "" && (own, name) in stands) return own
    if (match(name, /^[a-z0-9_]+::/)) {
        first = substr(name, 1, RLENGTH - 2)
        rest = substr(name, RLENGTH + 1)
        if (first in crates) return (first, rest) in stands ? first : "-"
    }
    if (own == "" || name ~ /::/) return ("", name) in stands ? "" : "-"
    return "-"
}

function without_crate(name,    first) {
    first = name
    sub(/::.*$/, "", first)
    if (name ~ /::/ && first in crates) sub(/^[a-z0-9_]+::/, "", name)
    return name
}

function is_path(name) {
    return name ~ /^[A-Za-z_][A-Za-z0-9_]*(::[A-Za-z_][A-Za-z0-9_]*)+$/
}

function is_name(name) {
    return name ~ /^[A-Za-z_][A-Za-z0-9_]*$/
}

# Whether a path is of the standard library or of a library that crates.txt names, or a name one of the standard traits:
# nothing is known of these here.
function is_foreign(name) {
    if (!sub(/::.*$/, "", name)) return index(" Clone Copy Debug Default Display Drop Eq Error From Hash Iterator Model Ord PartialEq PartialOrd ", " " name " ")
    return name == "std" || name == "core" || (name in known && !(name in crates))
}

# That the page names this call. Those of a crate are to be named by its own page.
function mark(name) {
    named[page_crate, without_crate(name)] = 1
    cited++
}

# One line of text, or a cell.
function take_prose(text,    found, behind, n, i, home, group) {
    n = names_in(text, found, behind)
    for (i = 1; i <= n; i++) {
        if (is_path(found[i]) && !is_foreign(found[i])) {
            home = home_of(found[i])
            if (home == "-") {
                say("`" found[i] "` is no public call, type or law")
                continue
            }
            mark(found[i])
        } else if (is_name(found[i]) && own != "" && alike[own, found[i]] == 1) {
            mark_only(found[i])
        } else {
            check_file(found[i])
        }
        if ((is_path(found[i]) || is_name(found[i])) && match(behind[i], /^ [(]`[a-z_]+`((, | and )`[a-z_]+`)*[)]/)) {
            group = substr(behind[i], RSTART, RLENGTH)
            take_group(found[i], group)
        }
    }
}

# A source `name.rt` or a definition `specs/Name` must be one of some crate.
function check_file(name) {
    sub(/^src[/]/, "", name)
    sub(/[.]antt$/, "", name)
    if ((name ~ /^[a-z0-9_]+[.]rt$/ || name ~ /^specs[/][A-Z][A-Za-z0-9]*$/) && !(name in files))
        say("no crate has a file `" name "`")
}

# A bare name that one call of the crate alone has.
function mark_only(name,    i, f) {
    for (i = 1; i <= owed_count; i++) {
        split(owed[i], f, "\t")
        if (f[1] == own && last_of(f[2]) == name) named[page_crate, f[2]] = 1
    }
}

# Clauses in round brackets behind a call.
function take_group(call, group,    home, found, behind, n, i) {
    if (call in crates) return
    home = home_of(call)
    if (home == "-") {
        if (call ~ /^[a-z]/) say("`" call "` is no public call")
        return
    }
    n = names_in(group, found, behind)
    for (i = 1; i <= n; i++) check_clause(found[i], call, home)
}

function check_clause(clause, call, home) {
    clauses_cited++
    if (index(" " clauses_of[home, without_crate(call)], " " clause " ")) return 1
    say("`" call "` has no clause `" clause "`")
    return 0
}

# A row of a table of calls: the calls of its first cell, or of the row above where that is empty.
function take_row(cells, count,    found, behind, n, i, home, clause_names, m, j, met, type_names) {
    n = names_in(cells[1], found, behind)
    if (n > 0) {
        row_calls = 0
        is_lost = 0
    }
    type_names = ""
    for (i = 1; i <= n; i++) {
        if (!is_path(found[i]) && !is_name(found[i])) continue
        if (is_foreign(found[i])) continue
        home = home_of(found[i])
        if (home == "-") {
            say("`" found[i] "` is no public call, type or law" (own == "" ? "" : " of " own))
            is_lost = 1
            continue
        }
        row_call[++row_calls] = found[i]
        row_home[row_calls] = home
        mark(found[i])
        if (found[i] ~ /^[A-Z][A-Za-z0-9]*$/) type_names = type_names " " found[i]
    }
    # Bare names mean the calls of the types in the cell, or of all types where it has none.
    for (i = 1; i <= n; i++) if (found[i] ~ /^[a-z_][a-z0-9_]*$/) mark_bare(found[i], type_names)
    for (i = 2; i <= count; i++) {
        if (i != clause_column) {
            take_prose(cells[i])
            continue
        }
        m = names_in(cells[i], clause_names, behind)
        for (j = 1; j <= m; j++) take_clause(clause_names[j])
    }
}

function mark_bare(name, type_names,    i, f, holder) {
    for (i = 1; i <= owed_count; i++) {
        split(owed[i], f, "\t")
        if (f[1] != page_crate || last_of(f[2]) != name) continue
        holder = f[2]
        if (!sub(/::[^:]*$/, "", holder)) holder = ""
        if (type_names == "" || holder == "" || index(type_names " ", " " holder " ")) named[page_crate, f[2]] = 1
    }
}

# A clause of a row must be one of some call of the row. A trait's or type's name there stands for its clauses.
function take_clause(clause,    i) {
    if (clause ~ /^[A-Z]/ || clause ~ /::/) {
        if (home_of(clause) == "-") say("`" clause "` is no type, trait or call")
        return
    }
    if (!is_name(clause)) return
    clauses_cited++
    for (i = 1; i <= row_calls; i++)
        if (index(" " clauses_of[row_home[i], without_crate(row_call[i])], " " clause " ")) return
    if (!is_lost) say(row_calls ? "none of the calls of this row has a clause `" clause "`" : "a clause `" clause "` without a call")
}

# The parts of a row of a table, which are between upright bars.
function cells_of(text, cells,    n, i) {
    gsub(/\\[|]/, "\002", text)
    sub(/^ *[|]/, "", text)
    sub(/[|] *$/, "", text)
    n = split(text, cells, "|")
    for (i = 1; i <= n; i++) gsub(/\002/, "|", cells[i])
    return n
}

function take_table_line(text,    cells, n, i) {
    n = cells_of(text, cells)
    if (!in_table) {
        in_table = 1
        row_calls = 0
        clause_column = 0
        is_calls = cells[1] ~ /^ *(call|law|calls|laws|call or law) *$/
        is_upstream = cells[1] ~ /upstream/
        for (i = 2; i <= n; i++) if (cells[i] ~ /^ *clauses? *$/) clause_column = i
        return
    }
    if (text ~ /^[| :-]+$/) return
    if (is_calls) take_row(cells, n)
    else for (i = is_upstream ? 2 : 1; i <= n; i++) take_prose(cells[i])
}

# The lines of a quoted piece of code must stand in a source, one behind the other.
function end_quote(    i, j, first, last) {
    first = 1
    last = quoted_count
    while (first <= last && quoted[first] ~ /^ *$/) first++
    while (last >= first && quoted[last] ~ /^ *$/) last--
    if (first > last) return
    for (i = 1; i <= source_count; i++) {
        if (sources[i] != quoted[first]) continue
        for (j = first + 1; j <= last; j++) if (sources[i + j - first] != quoted[j]) break
        if (j > last) return
    }
    say("the code that ends here stands in no source as it is quoted")
}

function take_links(text,    target, folder) {
    while (match(text, /\]\([^()]*\)/)) {
        target = substr(text, RSTART + 2, RLENGTH - 3)
        text = substr(text, RSTART + RLENGTH)
        if (target ~ /^(https?:|#)/) continue
        sub(/#.*$/, "", target)
        folder = page
        if (!sub(/[^\/]*$/, "", folder)) folder = ""
        print page ":" line_number "\t" folder target >links
    }
}

function take_heading(text,    found, behind, n, i) {
    if (page_crate != "") return
    own = ""
    n = names_in(text, found, behind)
    for (i = 1; i <= n; i++) if (found[i] in crates) own = own == "" ? found[i] : own
}

function take_page(    text) {
    page_crate = ""
    if (page ~ /^crates\//) {
        page_crate = page
        sub(/^crates\//, "", page_crate)
        sub(/\/.*$/, "", page_crate)
        paged[page_crate] = 1
    }
    own = page_crate
    line_number = 0
    in_code = 0
    in_table = 0
    while ((getline text <page) > 0) {
        line_number++
        if (text ~ /^ *```/) {
            if (in_code && is_rust) end_quote()
            in_code = !in_code
            is_rust = in_code && text ~ /```rust *$/
            quoted_count = 0
            continue
        }
        if (in_code) {
            if (is_rust) quoted[++quoted_count] = text
            continue
        }
        take_links(text)
        if (page == "docs/CRATES.md") list_of_crates = list_of_crates text
        if (text ~ /^    [^ ]/ && text !~ /^ *[-0-9]/) continue
        if (text ~ /^ *[|]/) {
            take_table_line(text)
            continue
        }
        in_table = 0
        if (text ~ /^#/) take_heading(text)
        else take_prose(text)
    }
    close(page)
    page_count++
}

BEGIN {
    printf "" >links
    read_surface()
    read_code()
    while ((getline page <pages) > 0) take_page()
    close(links)
    line_number = 1
    for (crate in crates) {
        page = "crates/" crate "/README.md"
        if (!(crate in paged)) say("the crate has no page")
        page = "docs/CRATES.md"
        if (!index(list_of_crates, "`" crate "`")) say("the page does not name the crate `" crate "`")
    }
    for (i = 1; i <= owed_count; i++) {
        split(owed[i], f, "\t")
        if (!(f[1] in paged) || (f[1], f[2]) in named) continue
        # The functions of a crate of callers are quoted where they help.
        if (f[1] ~ /^uses_/) continue
        page = "crates/" f[1] "/README.md"
        say("no page names the public call `" f[2] "`")
    }
    printf "%d pages name %d calls and types and %d clauses; %d public calls are to be named\n", page_count, cited, clauses_cited, owed_count
    exit failed
}
