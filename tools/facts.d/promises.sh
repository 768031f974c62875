# docs/PROMISES.md: the clauses that it names, and the goals of what was measured. The figures are those of the benches that it
# names, which count for minutes; a figure that two documents have is compared.

page=docs/PROMISES.md

# each clause that the table of the program's promises names is one of `fisb_app::run`
clauses=$(awk '/^## / { crate = $2 } /^### / { item = $2 } crate == "fisb_app" && item == "`run`" && $1 == "ensures" { print $2 }' docs/API.md)
while read -r clause; do
    in_order "$page, the clause $clause of run" "$(grep -x "$clause" <<< "$clauses")" "$clause"
done < <(table "$page" '## Of the program' | cell 2 | grep -oE '`[a-z_]+`' | plain | sort -u)
are_built_on "$page, definitions of promises" "$(table "$page" '## Of the program' | awk -F'\t' '
    # `spare` and `reach` are of the trait of sinks, and name no definition
    $3 ~ /`/ && $2 !~ /`spare`/ {
        gsub(/`/, "")
        sub(/ and its like/, "", $2)
        gsub(/,/, "", $2)
        n = split($3, files, ", ")
        folder = files[1]
        sub(/[^\/]*$/, "", folder)
        for (i = 1; i <= n; i++) print "fisb_app run " $2 " " (i > 1 ? folder : "") files[i]
    }')"
mended=$((${number[uplink_weave.block_roots]} / 2))
message=$(number_after fisb_app/Output uplink_bytes '= ')
in_order "$page, numbers of promises" "$mended
$message
${number[run_core.RING_LIMIT]}" "$(table "$page" '## Of the program' | numbers 1 | sed 's/^.*: //')"
in_order "$page, words of promises" "$(for party in link receive gdl make ground; do echo "$party: $party"; done)" "$(
    table "$page" '## Of the program' | awk -F'\t' '$1 ~ /^`(link|ground|receive|gdl|make)`/ {
        split($1, said, "`"); clause = $2; sub(/^[^`]*`/, "", clause); sub(/(_alone)?`.*$/, "", clause); print said[2] ": " clause }')"

answers=$(table "$page" '## Of the program' | cell 1 | grep -oE '`[A-Z][A-Za-z]+`' | plain)
in_order "$page, answers in promises" "$(variants Status | grep -xF "$answers")" "$answers"

# bounds that the text names
burst=$(number_after uplink_weave/Laws BurstGivesPayload 'first \+ ')
room=$(grep -oE '2 \* bytes_of before / [0-9]+ \+ [0-9]+' crates/ground_core/specs/Starving.antt | tr -cd '0-9 ' | tr -s ' ' | sed 's/^ //')
held=crates/receiver_core/specs/Bound.antt
bound_of() { sed -n "s/^  pub $1 : .* ≤ \([0-9a-z_]*\) \* number\$/\1/p" "$held"; }
in_order "$page, no starvation" "$room" "$(numbers_in "$(paragraph "$page" '**No starvation.**')")"
in_order "$page, a burst" "$burst $mended" "$(numbers_in "$(paragraph "$page" '**A burst.**')")"
in_order "$page, what a receiver keeps" "${number[uplink_frame.frame_room]} $(bound_of numbers) $(bound_of entries) 2" \
    "$(numbers_in "$(points "$page" '### receiver_core' | grep 'Proved of what it keeps')")"
in_order "$page, texts of a ground" "${number[dlac_text.LONGEST_TEXT]} $(number_after segment_core/Cutting TextsHaveFewParts '≤ ')" \
    "$(numbers_in "$(points "$page" '### ground_core' | grep -oE 'Texts have .* segments')")"
longest=$(sed -n 's/^  pub short : count ≤ \([0-9]*\)$/\1/p' crates/rs_code/specs/CodeWord.antt)
in_order "$page, the code" "${number[uplink_weave.block_bytes]} ${number[uplink_weave.block_roots]} ${number[uplink_weave.first_root]} $longest" \
    "$(numbers_in "$(paragraph "$page" '`Rs<N, ROOTS, FIRST>`')")"

# goals: of receptions, of blocks of radar, of runs
read -r _ times few _ least <<< "$(grep '^# To reach: a reception' bench/link | numbers 1 | sed 's/^.*: //')"
sizes=$(sed -n 's/^ *counts=(\([0-9 ]*\))$/\1/p' bench/link | head -n 1)
in_order "$page, sizes of what bench/link counts" "$sizes" "$(numbers_in "$(grep '^| | [0-9]* reports' "$page")")"
kinds=$(table "$page" '## Measured' | cell 1 | quoted | grep -vE '^$|/')
in_order "$page, lines that bench/link counts" "$(while read -r kind; do grep -x "$kind" <<< "$line_kinds"; done <<< "$kinds")" "$kinds"
clean=$(numbers_in "$(paragraph "$page" '- `uplink_bench` weaves' | grep -oE '[0-9,]+ to take a clean one')")
in_order "$page, goals of bench/link" "a hear of 14 newer reports: $times $few
the last without the code words, $clean by bench/uplink: $least $few" \
    "$(table "$page" '## Measured' | sed 's/,\([0-9]\)/\1/g' | numbers 5)"
in_a_frame=$(sed -n 's/^in_a_frame=//p' bench/link)
in_order "$page, reports of a frame" "a turn: $in_a_frame
a turn: $(numbers_in "$(sed -n 's/^# a script: so many reports of 46 characters, of which \([a-z]*\) are in a frame.*$/\1/p' bench/link)")
a hear: $in_a_frame" "$(table "$page" '## Measured' | head -n 4 | plain | sed 's/^\(a [a-z]*\)/\1\t&/' | numbers 2 | grep -v '^a text')"
code_words=$(numbers_in "$(table "$page" '## Measured' | sed -n 5p | cut -f1 | tr -d '\140')")
in_order "$page, what is left without the code words" "$(table "$page" '## Measured' | sed -n 4p | cut -f2-4 | tr -d ',' |
    awk -v code_words="$code_words" '{ print $1 - code_words, $2 - code_words, $3 - code_words }')" \
    "$(table "$page" '## Measured' | sed -n 5p | cut -f2-4 | tr -d ',' | tr '\t' ' ')"
radar_goals=$(tr '\n' ' ' < bench/radar | grep -oE 'at most [0-9]+ a block of an empty record, [^.]*')
read -r new kept record <<< "$(grep -oE '[0-9]+' <<< "$radar_goals" | tr '\n' ' ')"
in_order "$page, goals of bench/radar" "$new
$kept
$record" "$(table "$page" '## Measured' 2 | awk -F'\t' '{ gsub(/,/, "", $NF) } $NF != "" && !seen[$NF]++ { print $NF }')"
in_order "$page, sizes of what bench/radar counts" "$(numbers_in "$(grep -oE 'the figures with [0-9,]+ and with [0-9,]+ blocks kept' bench/radar)")" \
    "$(numbers_in "$(grep '^| | [0-9,]* blocks kept' "$page" | cut -d'|' -f3,4)")"
in_order "$page, records of runs" "$((${number[radar_core.CELLS]} / ${number[radar_core.LONGEST]}))
${number[radar_core.CELLS]}" "$(table "$page" '## Measured' 2 | grep -oE '^a record of [0-9]+ runs' | cut -d' ' -f4)"
seed=$(sed -n 's/^SEED = //p' bench/speed)
in_order "$page, goals of bench/speed" "$(sed -n 's/^    (\[\("[^]]*\)\], [^ ]*, \([0-9]*\)_000_000),$/\1 \2/p' bench/speed |
    sed "s/str(SEED)/$seed/; s/[\",]//g")" \
    "$(table "$page" '## Measured' 3 | cut -f1,3 | plain | tr '\t' ' ')"
in_order "$page, the ratio of hours" "$(sed -n 's/^.*return ratio <= \([0-9.]*\)$/\1/p' bench/speed)" \
    "$(numbers_in "$(paragraph "$page" 'So each is within its goal' | grep -oE 'where [0-9.]+ times')")"
# the hour of bench/workload, as two documents have it: frames heard, and entries of texts and of radar together
counted() { awk -v word="$1" '$1 == word && NF == 2 { print $2 }' docs/RECIPES.md; }
in_order "$page, the hour of bench/workload" "$(counted heard) $(($(counted radar) + $(counted text)))" \
    "$(paragraph "$page" '`bench/workload/compare` makes' | tr -d ',' | sed 's/^.* \([0-9]*\) frames heard .* \([0-9]*\) entries.*$/\1 \2/')"

# every bench that a document names is there
compare "benches" "$(for bench in bench/*; do echo "$bench"; done)" \
    "$(grep -ohE '`bench/[a-z_]+' docs/*.md README.md CONTRIBUTING.md | plain | sort -u)"
