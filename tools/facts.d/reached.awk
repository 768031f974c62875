# Which definitions the clauses of calls stand on. It reads the files of specs/ and src/, then rows `CRATE CALL CLAUSE .. FILE` of a
# table (a call without a clause stands for all of its clauses), and prints each row whose file defines a word that a clause is built
# on: one that it names, or that stands in the definition of such a word, and so on. A name is that of the file in which it stands, or
# of the file from which a `use` line takes it.

FNR == 1 {
    split(FILENAME, path, "/")
    here = path[2] "/" path[3] "/" path[4]
    is_code = FILENAME ~ /\.rt$/
    is_rows = FILENAME !~ /\.(rt|antt)$/
    word = clause = taking = ""
}

# use Rattle.CRATE.specs.FILE.{name, ..}; or `as`, which lends all names of the file
/^ *(ghost )?use Rattle\./ { taking = "" }
/^ *(ghost )?use Rattle\.[a-z0-9_]+\.specs\.[A-Za-z]+(\.\{| as )/ {
    split($0, dots, ".")
    from = dots[4]
    sub(/ as .*$/, "", from)
    file = dots[2] "/specs/" from ".antt"
    if (/ as /) lent[here] = lent[here] " " file
    else {
        names = $0
        sub(/^[^{]*\{/, "", names)
        n = split(names, list, /[^A-Za-z0-9_]+/)
        for (i = 1; i <= n; i++) origin[here, list[i]] = file
    }
    next
}

!is_code && !is_rows {
    if (/^(abbrev |unfoldable )?(pub )(record |data )?[A-Za-z]/) {
        word = $0
        sub(/^(abbrev |unfoldable )?(pub )?(record |data )?/, "", word)
        sub(/[^A-Za-z0-9_].*$/, "", word)
    }
    if (/^$/) word = ""
    if (word != "" && !/^--/) body[here, word] = body[here, word] " " $0
    next
}

is_code {
    if (match($0, /^ *(pub(\([a-z]+\))? )?(const )?fn [a-z_0-9]+/)) {
        call = substr($0, RSTART, RLENGTH)
        sub(/^.* /, "", call)
        clause = ""
        home[path[2], call] = here
    }
    if ($1 == "ensures") clause = ($2 == "{") ? "-" : $2
    if ($1 == "requires" || $1 == "//" || /^ *\{/ || NF == 0) clause = ""
    if (clause != "") {
        said[here, call, clause] = said[here, call, clause] " " $0
        all[here, call] = all[here, call] " " $0
    }
    next
}

# the file that defines a name which stands in a file
function origin_of(name, file,    files, n, i) {
    if ((file, name) in body) return file
    if ((file, name) in origin) return origin[file, name]
    n = split(lent[file], files, " ")
    for (i = 1; i <= n; i++) if ((files[i], name) in body) return files[i]
    return ""
}

function spread(text, file,    list, n, i, from) {
    n = split(text, list, /[^A-Za-z0-9_]+/)
    for (i = 1; i <= n; i++) {
        from = origin_of(list[i], file)
        if (from == "" || (row, from, list[i]) in reached) continue
        reached[row, from, list[i]]
        found[row, from]
        waiting[++last] = from SUBSEP list[i]
    }
}

{
    row++
    first = 1
    last = 0
    file = home[$1, $2]
    if (NF == 3) spread(all[file, $2], file)
    for (i = 3; i < NF; i++) spread(said[file, $2, $i], file)
    while (first <= last) {
        split(waiting[first], pair, SUBSEP)
        spread(body[pair[1], pair[2]], pair[1])
        first++
    }
    if ((row, $NF) in found) print
}
