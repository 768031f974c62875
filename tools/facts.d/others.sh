# The documents of the repository itself: glossary, crates, examples, and the public calls and files that documents name.

# each word of the glossary is defined where it says
while IFS=$'\t' read -r word means place standard; do
    crate=$(cut -d'`' -f2 <<< "$place")
    file=$(sed 's/^`[a-z0-9_]*` \([A-Za-z]*\): .*$/\1/' <<< "$place")
    found=""
    if grep -qE "^(abbrev |unfoldable )?(pub )?(record |data )?${place##* }( |\$)" "crates/$crate/specs/$file.antt"; then
        found=defined
    fi
    in_order "docs/GLOSSARY.md, $word" "${found:-not there}" defined
done < <(grep -E '^\|.*\| `[a-z0-9_]+` [A-Za-z]+: [A-Za-z_]+ \|' docs/GLOSSARY.md | sed 's/^| *//; s/ *|$//; s/ *| */\t/g')

# the numbers in what its words mean
code_bits=$(definition dlac_text/SixBitFields AreFields | grep -oE '[0-9]+$')
air=${number[uplink_weave.frame_bytes]}
roots=${number[uplink_weave.block_roots]}
block=${number[uplink_weave.block_bytes]}
forms=$(sed -n 's/^form_number [A-Za-z]* = //p' crates/apdu_core/specs/Apdu.antt)
in_order "docs/GLOSSARY.md, numbers" "moment: 1970 $first_year $last_year
time form: $(head -n 1 <<< "$forms") $(tail -n 1 <<< "$forms")
field: 256 ${number[gf256_core.UAT_MODULUS]}
power sum: $(number_after rs_code/CodeWord power_sum 'element_power ')
code word: $(sed -n 's/^  pub sums : .*power_sum word j ≡ \([0-9]*\)$/\1/p' crates/rs_code/specs/CodeWord.antt)
near: $((roots / 2)) $block
block: $block $((air / block))
woven: $air $((air / block))
slot: 0 $(($(sed -n 's/^  pub slot : h.slot < \([0-9]*\)$/\1/p' crates/uplink_frame/specs/UplinkFrame.antt) - 1))
APDU: $(number_after uplink_frame/UplinkFrame fisb_frame 'kind = ')
product: ${number[life_table.text_product]} ${number[life_table.regional_radar]} ${number[life_table.conus_radar]}
DLAC: $code_bits
report: 2
plain text: $(printf 'U+%04X' "$(definition dlac_text/Plain plain_character | grep -oE 'character == [0-9]+' | sed -n 2p | cut -d' ' -f3)")
radar block: ${number[radar_core.CELLS]}
cells: ${number[radar_core.CELLS]} 0 $highest_intensity
file number: ${number[ground_core.FILE_NUMBERS]}
airing: ${number[uplink_frame.frame_room]}
piece: 2
rose: $(sed -n 's/^u64_count n = min n (\([0-9]*\) ^ \([0-9]*\) - \([0-9]*\))$/\1 \2 \3/p' crates/fisb_wire/specs/Faults.antt)" "$(
    for heading in Time 'On the air' Weather 'The ground' 'The receiver and the pictures' Displays 'The run'; do
        table docs/GLOSSARY.md "## $heading" | numbers 2
    done)"

# The crates: each stands in the table with crates that crates.txt lists for it, and `nothing` is used above of those that no
# other one lists. The promises name each of them too.
lists=$(grep -v '^#' crates.txt)
crates=$(table docs/ARCHITECTURE.md '## The crates')
compare "docs/ARCHITECTURE.md, crates" "$(cut -d: -f1 <<< "$lists")" "$(cell 1 <<< "$crates" | plain)"
listed=$(awk '{ name = $1; sub(/:$/, "", name); if (NF == 1) print name, "std"; for (i = 2; i <= NF; i++) print name, $i }' <<< "$lists")
named=$(awk -F'\t' '{ gsub(/`/, ""); n = split($3, on, ", "); for (i = 1; i <= n; i++) print $1, on[i] }' <<< "$crates")
in_order "docs/ARCHITECTURE.md, what crates stand on" "$(grep -xF "$listed" <<< "$named")" "$named"
# what a list has beside these is below one of them, or a crate of words and lemmas, or of the kit
in_order "docs/ARCHITECTURE.md, what is below them" "none" "$(awk -v small="bit_fields list_members byte_search" '
    function reach(crate,    n, i, list) {
        n = split(on[crate], list, " ")
        for (i = 1; i <= n; i++) if (!((top, list[i]) in below)) { below[top, list[i]]; reach(list[i]) }
    }
    NR == FNR { on[$1] = on[$1] " " $2; ours[$1]; next }
    !($1 in done) { top = $1; done[top]; reach(top) }
    ($2 in ours) && index(" " small " ", " " $2 " ") == 0 && !(($1, $2) in below) { print $1, $2; missing = 1 }
    END { if (!missing) print "none" }' <(printf '%s\n' "$named") <(printf '%s\n' "$listed"))"
compare "docs/ARCHITECTURE.md, crates of which nothing is used above" "$(cut -d: -f1 <<< "$lists" | grep -vxF "$(cut -d' ' -f2 <<< "$listed")")" \
    "$(awk -F'\t' '$4 == "nothing" { gsub(/`/, "", $1); print $1 }' <<< "$crates")"
in_order "docs/ARCHITECTURE.md, numbers of crates" "dlac_text: $code_bits
gf256_core: 256
uplink_weave: $air
uplink_vectors: $(grep -cE "^($(grep '^uplink_vectors:' <<< "$lists" | cut -d: -f2 | sed 's/ uplink_frame//; s/^ //; s/ /|/g')):" <<< "$lists")
uses: $(grep -E '^(pub )?mod [a-z]*;$' crates/uses/src/lib.rt | grep -vc tests)" "$(numbers 2 <<< "$crates")"
without=$(points docs/PROMISES.md '### Crates without promises' | sed 's/ \(has\|have\|are\|is\|weaves\) .*//' | grep -oE '`[a-z0-9_]+`' | plain)
compare "docs/PROMISES.md, crates" "$(cut -d: -f1 <<< "$lists")" "$(awk '/^### [a-z0-9_]+$/ { print $2 }' docs/PROMISES.md; echo "$without")"

# the examples: exit statuses, and the numbers of what they show
page=examples/README.md
shown=$(table "$page" '# Examples')
in_order "$page, exit statuses" "$(while read -r name; do echo "$name $(cat "examples/$name.status")"; done < <(cell 1 <<< "$shown" | plain))" \
    "$(awk -F'\t' '{ gsub(/`/, "", $1); print $1, $3 }' <<< "$shown")"
compare "$page, examples" "$(for script in examples/*.txt; do basename "$script" .txt; done)" "$(cell 1 <<< "$shown" | plain)"
lines_in() { grep -cE "^($2)( |\$)" "examples/$1.txt"; }
life_shown() { awk '$1 == "text" { version = $3 } $1 == "show" { print $2 - version }' "examples/$1.txt"; }
wrong=$(awk '$1 == "hear" && NF > 3 { print NF - 3 }' examples/damaged_frames.txt | sort -n)
in_order "$page, numbers" "last_second: $(life_shown last_second)
one_second_later: $(life_shown one_second_later)
ground_one_metar: $air
several_airports: $(awk '$1 == "text" { print $5 }' examples/several_airports.txt | sort -u | wc -l)
long_text: $(awk '$1 == "text" { $1 = $2 = $3 = ""; print length($0) - 3 - gsub(/\\n/, "") }' examples/long_text.txt) $(lines_in long_text turn)
damaged_frames: $(sed -n 2p <<< "$wrong") $(sed -n '$p' <<< "$wrong")
two_stations: $(lines_in two_stations station)
own_table: $(sed -n 's/^words = \(3\)$/\1/p' examples/own_table.txt)
no_table: $(tr -cd - <<< "$(definition run_core/Opening is_table_end | cut -d'"' -f2)" | wc -c) $(cut -d' ' -f2 examples/no_table.out)
radar: $(awk '$1 == "blank" { print split($7, list, ",") }' examples/radar.txt) $(awk '$1 == "picture" { print $3 }' examples/radar.out)
rain_moves: $(lines_in rain_moves show)
received_metar: $(lines_in received_metar rx)
display_messages: $(($(od -An -v -tx1 -w1 examples/display_messages.out | grep -c 7e) / 2))
make_one_minute: $(tail -n +2 examples/make_one_minute.words | tr '\n' ' ')1" "$(numbers 2 <<< "$shown")"

# the words in what they show: the command of the example first, and else commands, lines and examples alone
in_order "$page, commands" "$(while read -r name; do
    [ -e "examples/$name.words" ] && echo "$name: $(tr '\n' ' ' < "examples/$name.words" | sed 's/ $//')"
done < <(cell 1 <<< "$shown" | plain))" "$(awk -F'\t' '{ split($2, said, "`"); gsub(/`/, "", $1); print $1 ": " said[2] }' <<< "$shown" |
    grep -E "^($(for words in examples/*.words; do basename "$words" .words; done | tr '\n' '|')none): ")"
known=$(variants Command | tr 'A-Z' 'a-z'; echo "$line_kinds"; cell 1 <<< "$shown" | plain)
shown_words=$(cell 2 <<< "$shown" | grep -oE '`[^`]*`' | plain | sed 's/ .*//')
in_order "$page, words" "$(while read -r word; do grep -x "$word" <<< "$known"; done <<< "$shown_words")" "$shown_words"

# tests: the crates of trials that CONTRIBUTING names
compare "CONTRIBUTING.md, crates of tests" "$(cut -d: -f1 <<< "$lists" | grep -E '_trials$|_vectors$')" \
    "$(paragraph CONTRIBUTING.md 'Tests stand in crates of their own' | grep -oE '`[a-z_]+`' | plain)"

# each file that documents name by its name alone is in one of the crates
for page in CONTRIBUTING.md docs/*.md README.md; do
    while read -r file; do
        found=$(compgen -G "crates/*/*/$file" | head -n 1)
        in_order "$page, the file $file" "${found:+$file}" "$file"
    done < <(grep -ohE '`[A-Za-z_]+\.(rt|antt)`' "$page" | plain | sort -u)
done

# each public call that a document names by its crate stands in docs/API.md, in the part of that crate
while IFS=: read -r crate name; do
    found=$(awk -v crate="$crate" -v item="^### .(laws::)?$name." '
        /^## / { inside = ($2 == crate) }
        inside && $0 ~ item { print "public"; exit }' docs/API.md)
    in_order "the call $crate::$name" "${found:-not there}" public
done < <(
    grep -ohE '`[a-z0-9_]+::[A-Za-z_:]+`' README.md CONTRIBUTING.md docs/SCRIPT.md docs/FORMATS.md docs/LIFE_TABLE.md docs/PROMISES.md \
        docs/ARCHITECTURE.md docs/CALLING.md | plain | sed 's/::/:/' | sort -u |
        while IFS=: read -r crate name; do [ -d "crates/$crate" ] && echo "$crate:$name"; done
)

# blocks of documents that are parts of examples
block_after() {
    awk -v start="$2" '
        code && $0 == "```" { code = 0; if (seen) exit; next }
        /^```/ { code = 1; next }
        code && $0 == start { seen = 1 }
        seen && code' "$1"
}
in_order "docs/SCRIPT.md, the first script" \
    "$(tail -n +2 examples/one_metar.txt)" "$(block_after docs/SCRIPT.md "$(sed -n 2p examples/one_metar.txt)")"
in_order "docs/SCRIPT.md, its output" "$(cat examples/one_metar.out)" "$(block_after docs/SCRIPT.md "$(head -n 1 examples/one_metar.out)")"
in_order "docs/RECIPES.md, heard and lost" "$(grep -E '^(heard|lost)' examples/received_metar.out)" \
    "$(block_after docs/RECIPES.md '$ bench/decoder < examples/received_metar.txt' | grep -E '^heard|^lost [0-9]+ ')"
