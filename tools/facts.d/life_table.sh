# docs/LIFE_TABLE.md: keys and their values, the default table, and the faults of rows.

page=docs/LIFE_TABLE.md
document=life_table/Document
rules=crates/life_table/specs/Rules.antt
rows_of=life_table/RowsOf

# the first number after a text in a definition
after_text() { grep -oE "$1[0-9]+" <<< "$2" | head -n 1 | grep -oE '[0-9]+$'; }
head=$(definition "$document" judged_head)
version=$(after_text 'int_eq version \(pos ' "$head")
latest=$(sed -n 's/^  pub late : table.late ≤ \([0-9]*\)$/\1/p' "$rules")
word=$(definition "$document" is_word | grep -oE 'nat_le 1 |\(length word\) [0-9]+' | tr -d 'a-z_()' | tr -s ' \n' ' ')
words_of_key=$(definition "$document" key_words | grep -oE 'Some [0-9]+' | cut -d' ' -f2 | tr '\n' ' ')
forms=$(definition "$document" form_of | grep -oE 'pos [0-9]+' | cut -d' ' -f2)
radars="${number[life_table.regional_radar]} ${number[life_table.conus_radar]}"
least_life=$(after_text 'int_lt life \(pos ' "$(definition "$document" life_in)")
first_form=$(head -n 1 <<< "$forms")
last_form=$(tail -n 1 <<< "$forms")

# the keys of the document and of both kinds of rows, in the order in which the definitions look for them
keys_of() { definition "$1" "$2" | grep -oE 'codes "[a-z]+"' | cut -d'"' -f2; }
in_order "$page, keys" "$(
    keys_of "$document" head | grep -vxE 'text|radar' | sed 's/$/ document/'
    keys_of "$rows_of" own_text | grep -vxE 'life|form' | sed 's/$/ text/'
    echo 'life both'
    echo 'form both'
    keys_of "$rows_of" alike_text | grep -vx type | sed 's/$/ text/'
    keys_of "$rows_of" radar_entry | grep -vxE 'life|form' | sed 's/$/ radar/'
)" "$(table "$page" '## A table' | awk -F'\t' '{ gsub(/[`[]|\]/, ""); print $1, $2 }')"
compare "$page, keys of both kinds of rows" "$(keys_of "$rows_of" own_text | grep -xF "$(keys_of "$rows_of" radar_entry)")" \
    "$(table "$page" '## A table' | awk -F'\t' '$2 == "both" { gsub(/`/, "", $1); print $1 }')"
in_order "$page, numbers of keys" "version: $version
late: 0 $latest
type: ${word# }0 9
words: ${words_of_key% }
life: $least_life
form: $first_form $last_form
product: $radars" "$(table "$page" '## A table' | numbers 3)"
in_order "$page, words of keys" "type: . / -
as: $(keys_of "$rows_of" own_text | grep -vx type | tr '\n' ' ')$(keys_of "$rows_of" alike_text | tr '\n' ' ' | sed 's/ $//')" \
    "$(table "$page" '## A table' | words 3)"
in_order "$page, rows" "${number[life_table.TEXT_ROWS]} ${number[life_table.RADAR_ROWS]}" \
    "$(sed -n 's/^.*arrays of tables `text` (\([0-9]*\) rows) and `radar` (\([0-9]*\) rows).*$/\1 \2/p' "$page")"
in_order "$page, the longest table" "${number[run_core.TABLE_LIMIT]}" \
    "$(numbers_in "$(paragraph "$page" 'How long each kind of weather' | grep -oE 'at most [0-9,]+ bytes')")"

# how long a life may be: in the forms without a date, and in those with one
limits=$(sed -n 's/^IsWithinForm late \([A-Za-z]*\) life = \(.*\)$/\1 \2/p' "$rules")
undated=$(awk '$2 == "life" && $3 == "+" { print $1 }' <<< "$limits" | wc -l)
in_order "$page, how long a life may be" "$(seq -s ' ' 0 $((undated - 1))) ${number[fisb_time.day_seconds]} \
$(seq -s ' ' "$undated" "$last_form") ${number[life_table.thirty_days]} $((${number[life_table.thirty_days]} / ${number[fisb_time.day_seconds]}))" \
    "$(numbers_in "$(paragraph "$page" '**How long a life may be.**')")"

# the default table, and what is said of it
default=$(sed -n 's/^.*codes "\(.*\)".*$/\1/p' crates/life_table/specs/DefaultDocument.antt | sed 's/\\"/"/g; s/\\n/\n/g' | grep .)
in_order "$page, the default table" "$default" "$(awk '
    /^## / { inside = ($0 == "## The default table") }
    /^```$/ { open = 0 }
    inside && open
    /^```toml$/ { open = 1 }' "$page")"
life_of() { awk -v key="$1" '$0 == key { inside = 1 } inside && $1 == "life" { print $3; exit }' <<< "$default"; }
hours() { echo $(($(life_of "$1") / 3600)); }
in_order "$page, the lives of the default table" "$(hours 'type = "METAR"') $(hours 'type = "TAF"') $(hours 'type = "PIREP"') \
$(($(life_of 'product = 63') / 60)) $(($(life_of 'product = 64') / 60)) of a day $((24 * 3600 / $(life_of 'type = "WINDS"')))" \
    "$(numbers_in "$(paragraph "$page" 'So a METAR lives')") of a day $(grep -cE 'winds a day;' "$page")"
metar=$(paragraph "$page" '**What a life means.**' | grep -oE '[0-9]+:[0-9:]+' | tr '\n' ' ')
seconds=$(($(life_of 'type = "METAR"') - 1))
in_order "$page, the last second of a METAR" "22:13:00 $(date -u -d "2023-11-14 22:13:00 UTC $seconds seconds" +%H:%M:%S) " "$metar"

# The faults of rows: each with its word; in the order in which each kind of row is looked at, and, where no row has both, in
# that of their declaration. `product` is declared last and looked at before `twice`.
faults=$(table "$page" '## Refusals')
named=$(awk -F'\t' '{ gsub(/`/, "", $1); print $5, $1 }' <<< "$faults")
in_order "$page, faults of rows" "$(variants RowFault | grep -vx Product | while read -r name; do
    variant_words refusal_core/Refusal row_word | grep "^$name "
done)" "$(grep -v '^Product ' <<< "$named")"
in_order "$page, the fault of a product" "$(variant_words refusal_core/Refusal row_word | grep '^Product '
    echo Twice)" "$(grep -A1 '^Product ' <<< "$named" | sed 's/^Twice.*/Twice/')"
faults_in() {
    local file=$1
    shift
    for part in "$@"; do
        definition "$file" "$part" | grep -oE '(or_fault|Err) (Shape|Version|Late|Rows|Word|Product|Twice|As|Words|Form|Life)\b' | cut -d' ' -f2
    done | awk '!seen[$1]++'
}
column_of() { awk -F'\t' -v column="$1" '$column != "" { print $5 }' <<< "$faults"; }
in_order "$page, faults of row 0" "$(faults_in "$document" head judged_head)" "$(column_of 2)"
own=$(faults_in "$rows_of" text_entry own_text row_of_its_own | awk '!seen[$1]++')
alike=$(faults_in "$rows_of" text_entry alike_text alike_row)
in_order "$page, faults of a row of texts" "$own" "$(column_of 3 | grep -vx As)"
in_order "$page, faults of a row with as" "$alike" "$(column_of 3 | grep -xF "$alike")"
in_order "$page, faults of a row of radar" "$(faults_in "$rows_of" radar_entry radar_row_of)" "$(column_of 4)"
text_rows=${number[life_table.TEXT_ROWS]}
in_order "$page, numbers of faults of row 0" "version: $version
late: 0 $latest
rows: $text_rows ${number[life_table.RADAR_ROWS]}" "$(numbers 2 <<< "$faults")"
in_order "$page, numbers of faults of a row of texts" "words: ${words_of_key% }
form: $first_form $last_form
life: $least_life" "$(numbers 3 <<< "$faults")"
in_order "$page, numbers of faults of a row of radar" "product: $radars" "$(numbers 4 <<< "$faults")"
alike_keys=$(keys_of "$rows_of" alike_text | tr '\n' ' ' | sed 's/ $//')
in_order "$page, words of faults of a row of texts" "word: $alike_keys
twice: ${alike_keys%% *}
as: $alike_keys" "$(words 3 <<< "$faults")"
in_order "$page, words of faults of a row of radar" "twice: $(keys_of "$rows_of" radar_entry | head -n 1)" "$(words 4 <<< "$faults")"
compare "$page, answers of the library" "$(variants TableFault | grep -vx NoMemory | sed 's/^/TableFault::/')" \
    "$(grep -oE 'TableFault::[A-Za-z]+' "$page")"
