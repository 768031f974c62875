# What the parts of tools/facts share: comparing, the tables and lists of documents, and the numbers of the sources. A part is
# read by tools/facts, at the top of the repository.

compared=0
failed=0

# One fact: what the sources say, and what the document says. The order of the lines is a part of it.
in_order() {
    compared=$((compared + 1))
    if [ -z "$2" ]; then
        failed=$((failed + 1))
        echo "facts: $1: nothing was found in the sources"
    elif [ "$2" != "$3" ]; then
        failed=$((failed + 1))
        echo "facts: $1: < the sources, > the document"
        diff <(printf '%s\n' "$2") <(printf '%s\n' "$3") | grep '^[<>]'
    fi
}

# the same of lines in any order
compare() {
    in_order "$1" "$(sort <<< "$2")" "$(sort <<< "$3")"
}

# ---- the documents

# the rows of the N-th table below a heading, without that of the titles, their cells separated by tabs
table() {
    awk -v heading="$2" -v wanted="${3:-1}" '
        /^```/ { code = !code }
        !code && /^#+ / { inside = ($0 == heading); count = 0 }
        !/^\|/ { row = 0; next }
        inside && !code {
            row++
            if (row == 1) count++
            if (row < 3 || count != wanted) next
            gsub(/^\| *| *\|$/, "")
            gsub(/ *\| */, "\t")
            print
        }
    ' "$1"
}

# the points of a list below a heading, each in one line
points() {
    awk -v heading="$2" '
        function flush() { if (point != "") print point; point = "" }
        /^#+ / { flush(); inside = ($0 == heading) }
        /^$/ { flush(); next }
        inside && /^- / { flush(); point = substr($0, 3); next }
        inside && /^ / && point != "" { sub(/^ +/, " "); point = point $0; next }
        { flush() }
        END { flush() }
    ' "$1"
}

# the paragraph of a document that begins with these words, in one line
paragraph() {
    awk -v start="$2" '
        index($0, start) == 1 { inside = 1 }
        /^$/ { if (inside) exit }
        inside { text = text (text == "" ? "" : " ") $0 }
        END { print text }
    ' "$1"
}

# the N-th grammar of a document, its spaces made single
grammar() {
    awk -v wanted="$2" '
        /^```text$/ { inside = 1; block = ""; next }
        /^```/ && inside { inside = 0; if (block ~ /^[a-z]+ +=/ && ++count == wanted) printf "%s", block; next }
        inside && NF { gsub(/ +/, " "); sub(/ $/, ""); block = block $0 "\n" }
    ' "$1"
}

cell() { cut -f"$1"; }
plain() { tr -d '`'; }

# what stands in backquotes, a line for each line
quoted() {
    awk '{
        said = ""
        n = split($0, parts, "`")
        for (i = 2; i <= n; i += 2) said = said (said == "" ? "" : " ") parts[i]
        print said
    }'
}

# The numbers in a column of rows: of each row that has one its first cell, and its numbers in order. They are written in
# digits or, up to twelve, in words; what is glued to a letter, as in `C5`, is none.
numbers() {
    awk -F'\t' -v column="$1" '
        BEGIN {
            n = split("two three four five six seven eight nine ten eleven twelve", words, " ")
            for (i = 1; i <= n; i++) value[words[i]] = i + 1
        }
        {
            text = $column
            found = ""
            while (match(text, /U\+[0-9A-F]+|0x[0-9A-Fa-f]+|[A-Za-z][A-Za-z0-9]*|[0-9][0-9,.]*/)) {
                token = substr(text, RSTART, RLENGTH)
                text = substr(text, RSTART + RLENGTH)
                if (token ~ /^[0-9]/ && token !~ /^0x/) {
                    gsub(/,/, "", token)
                    sub(/\.+$/, "", token)
                    found = found " " token
                } else if (token ~ /^(0x|U[+])/) {
                    found = found " " token
                } else if (tolower(token) in value) {
                    found = found " " value[tolower(token)]
                }
            }
            name = $1
            gsub(/`/, "", name)
            if (found != "") print name ":" found
        }'
}

# The words in backquotes in a column of rows: of each row that has one its first cell, and these words.
words() {
    awk -F'\t' -v column="$1" '{
        found = ""
        n = split($column, parts, "`")
        for (i = 2; i <= n; i += 2) found = found " " parts[i]
        name = $1
        gsub(/`/, "", name)
        if (found != "") print name ":" found
    }'
}

# the numbers of one text
numbers_in() { printf '%s\n' "$1" | numbers 1 | sed 's/^.*: //'; }

# ---- the sources

sources() { cat crates/*/src/*.rt; }

# number[crate.NAME]: each constant of src/, and each word of specs/ that is a number
declare -A number
while read -r name value; do
    number[$name]=$value
done < <(
    awk '
        FNR == 1 { split(FILENAME, path, "/") }
        /const [A-Z_0-9]+: [a-z0-9]+ = (0x)?[0-9][0-9a-f_]*;/ {
            line = $0
            sub(/^.*const /, "", line)
            name = line
            sub(/:.*$/, "", name)
            sub(/^.* = /, "", line)
            sub(/;.*$/, "", line)
            gsub(/_/, "", line)
            print path[2] "." name, line
        }
        /^[a-z_]+ = [0-9]+$/ { print path[2] "." $1, $3 }
    ' crates/*/src/*.rt crates/*/specs/*.antt
)

# the file of specs/ that is named CRATE/FILE
file_of() { echo "crates/${1%/*}/specs/${1#*/}.antt"; }

# the text of a definition: its equations, in one line
definition() {
    awk -v name="$2" '
        $1 == name && / =|^[a-z_]+$/ && !/^(abbrev|pub|unfoldable)/ { inside = 1 }
        /^$/ { inside = 0 }
        inside { text = text " " $0 }
        END { gsub(/ +/, " ", text); print text }
    ' "$(file_of "$1")"
}

# the first number after a pattern in a definition
number_after() { definition "$1" "$2" | grep -oE "$3[0-9]+" | head -n 1 | grep -oE '[0-9]+$'; }

# the fields that a definition puts side by side: width and number of each
side_by_side() {
    definition "$1" "$2" | grep -oE 'record \{ width = [^;]*; number = [^}]* \}' |
        sed 's/record { width = \([^;]*\); number = \(.*\) }/\1 \2/'
}

# the variants of an enum in their order
variants() {
    sources | awk -v start="pub enum $1 {" -v inner="pub(crate) enum $1 {" '
        $0 == start || $0 == inner { inside = 1 }
        /^}/ { inside = 0 }
        inside && match($0, /^    [A-Z][A-Za-z0-9]*/) { print substr($0, 5, RLENGTH - 4) }'
}

# the words that a definition gives to the variants of an enum, in its order: Variant word
variant_words() {
    sed -n "s/^$2 (\{0,1\}[a-z]*\.\{0,1\}\([A-Z][A-Za-z]*\)[a-z ]*)\{0,1\} = codes \"\([a-z]*\)\".*\$/\1 \2/p" "$(file_of "$1")"
}

# the words of lines, in the order in which a line is defined, with that of the empty line
line_kinds=$(awk '/^pub data Line / { inside = 1; next } /^$/ { inside = 0 } inside && $1 != "--" { print $1 }' \
    crates/script_core/specs/Script.antt)

# the lines that a command takes: PARTY LINE, each in its order
taken_lines=$(awk -v kinds="$(tr '\n' ' ' <<< "$line_kinds")" '
    /^is_taken [A-Z][a-z]* / {
        sub(/^\(/, "", $3)
        party = tolower($2)
        if (!(party in known)) { known[party]; order[++count] = party }
        said[party, $3] = $NF
    }
    END {
        n = split(kinds, list, " ")
        for (p = 1; p <= count; p++) for (i = 1; i <= n; i++) {
            kind = ((order[p], list[i]) in said) ? list[i] : "line"
            if (said[order[p], kind] == "true") print order[p], list[i]
        }
    }' crates/fisb_app/specs/Reading.antt)

# What a line of a kind gives in a command: the first words of the lines that its definition writes, or `bytes`.
given_words() {
    awk -v party="$1" -v kind="$2" '
        function visit(name,    text, words, n, i) {
            if (name == "display_bytes") { print "bytes"; return }
            if ((name, party) in body) text = body[name, party]
            else if ((name, "") in body) text = body[name, ""]
            else return
            if ((name, "seen") in seen) return
            seen[name, "seen"]
            write(text)
            n = split(text, words, /[^a-z_]+/)
            for (i = 1; i <= n; i++) if (words[i] != name) visit(words[i])
        }
        function write(text,    word) {
            while (match(text, /codes "[a-z]+" ∷/)) {
                word = substr(text, RSTART + 7)
                sub(/".*$/, "", word)
                print word
                text = substr(text, RSTART + RLENGTH)
            }
        }
        /^(use|abbrev|unfoldable|pub|--)/ || /^$/ { key = ""; next }
        /^[a-z_]+ / {
            name = $1
            of = ($2 == "Ground" || $2 == "Gdl") ? tolower($2) : ""
            if (name == "given_text") { of = ""; name = "given_text " (match($0, /\([a-z]+/) ? substr($0, RSTART + 1, RLENGTH - 1) : "") }
            key = name SUBSEP of
            sub(/^[^=]* =/, "")
        }
        key != "" { sub(/^ +/, " "); body[key] = body[key] $0 }
        END { visit("given_text " kind) }
    ' crates/script_core/specs/Printed.antt crates/fisb_app/specs/Output.antt
}

# what a command writes of the lines that it takes, each word once
written_words() {
    while read -r party kind; do
        if [ "$party" = "$1" ]; then
            given_words "$party" "$kind"
        fi
    done <<< "$taken_lines" | awk '!seen[$1]++'
}

# the exit status of an answer
statuses=$(sed -n 's/^ *Status::\([A-Za-z]*\)\( { .. }\)\{0,1\} => \([0-9]*\),$/\1 \3/p' crates/run_core/src/status.rt)
status_of() { awk -v name="$1" '$1 == name { print $2 }' <<< "$statuses"; }

# the years of the first and of the last moment
first_year=$(date -u -d "@${number[fisb_time.first_moment]}" +%Y)
last_year=$(date -u -d "@${number[fisb_time.last_moment]}" +%Y)

# the highest intensity of a cell, which takes three bits
highest_intensity=$(($(sed -n 's/^  pub intensity : run.intensity < \([0-9]*\)$/\1/p' crates/radar_core/specs/Runs.antt) - 1))
# how many cells stand in a row of a block
row_of_cells=$(sed -n 's/^.*: four rows of \([0-9]*\) from.*$/\1/p' crates/radar_core/src/cells.rt)

# rows `CRATE CALL CLAUSE .. FILE`: the clauses are built on definitions of the file
are_built_on() {
    in_order "$1" "$(awk -f tools/facts.d/reached.awk crates/*/specs/*.antt crates/*/src/*.rt - <<< "$2")" "$2"
}
