# docs/SCRIPT.md: commands, lines, fields, refusals, statuses and limits.

page=docs/SCRIPT.md
commands=$(table "$page" '# Scripts')
in_order "$page, commands" "$(variants Command | tr 'A-Z' 'a-z')" "$(cell 1 <<< "$commands" | plain | cut -d' ' -f1)"

# what a command reads is said by what it takes, or by what it does not take
while IFS=$'\t' read -r party said; do
    kinds=$(awk -v party="$party" '$1 == party && $2 != "empty" { print $2 }' <<< "$taken_lines")
    if [[ $said == *'but no'* ]]; then
        kinds=$(grep -vxF "$kinds" <<< "$line_kinds" | grep -vx empty)
    fi
    in_order "$page, what $party reads" "$(tr '\n' ' ' <<< "${kinds:-nothing}")" \
        "$(quoted <<< "$said" | tr ' ' '\n' | grep . | tr '\n' ' ' || echo 'nothing ')"
done < <(cut -f1,2 <<< "$commands" | sed 's/^`//; s/`//; s/ N SEED//')
minutes=$(sed -n 's/^ *n ← number_within \([0-9]*\) \([0-9]*\) count$/\1 \2/p' crates/fisb_app/specs/Command.antt)
seeds=$(sed -n 's/^ *s ← number_within 0 \([0-9]*\) seed$/\1/p' crates/fisb_app/specs/Command.antt)
in_order "$page, numbers of what commands write" "ground: ${number[uplink_weave.frame_bytes]}
make N SEED: $minutes 2 $(awk -v last="$seeds" 'BEGIN { print log(last) / log(2) }')" "$(numbers 3 <<< "$commands" | sed 's/one line.*: //')"
in_order "$page, the words of a command" "$(status_of Usage)" "$(numbers_in "$(paragraph "$page" 'Any other words, or none')")"

# the forms of lines, from the definitions that read their fields
fields_of() {
    sed -n "s/^$1 \(.*\) = do\$/\1/p" crates/script_core/specs/Fields.antt | sed 's/^head //' | tr -d '()[]' | tr -s ' ∷' ' ' |
        sed 's/ $//; s/latitude/LAT/; s/longitude/LON/; s/word rest/REPORT/; s/hemisphere/HEMI/
            s/numbers/NUMBER { "," NUMBER }/; s/places/{ PLACE "=" BYTE }/' | tr 'a-z' 'A-Z'
}
forms=$(
    echo "script = [ table ] \"---\" LF { line LF }"
    echo "line = $(tr '\n' ' ' <<< "$line_kinds" | sed 's/ $//; s/ / | /g')"
    echo 'empty ='
    for kind in station text; do
        echo "$kind = \"$kind\" $(fields_of "${kind}_line")"
    done
    echo "radar = \"radar\" $(fields_of head_in) $(fields_of block_behind)"
    echo "blank = \"blank\" $(fields_of head_in) $(fields_of blanks_behind)"
    for kind in turn hear rx show; do
        echo "$kind = \"$kind\" $(fields_of "${kind}_line")"
    done
)
in_order "$page, the forms of lines" "$forms" "$(grammar docs/SCRIPT.md 1)"

rows=$(table "$page" '## Input')
in_order "$page, kinds of lines" "$(tail -n +2 <<< "$line_kinds"; head -n 1 <<< "$line_kinds")" "$(cell 1 <<< "$rows" | plain | tr -d '()')"
compare "$page, which lines a command takes" "$taken_lines" "$(awk -F'\t' '{
    gsub(/[`()]/, "", $1)
    gsub(/`/, "", $2)
    if ($2 == "all") $2 = "link, ground, receive, gdl"
    n = split($2, list, ", ")
    for (i = 1; i <= n; i++) print list[i], $1
}' <<< "$rows")"
in_order "$page, numbers of what lines do" "radar: ${number[script_core.CELLS]}
blank: 0
turn: 0
rx: ${number[uplink_weave.frame_bytes]}" "$(numbers 3 <<< "$rows")"

updates=$(sed -n 's/^is_update (\([a-z]*\) .*) = true$/\1/p' crates/fisb_app/specs/Reading.antt | tr '\n' ' ')
in_order "$page, words of what lines do" "station: ${updates}turn
rx: $(for party in ground receive gdl; do [ "$(given_words "$party" rx)" = bytes ] && echo "$party"; done)" "$(words 3 <<< "$rows")"

# the fields of lines: their ranges, and the numbers of what they are
fields=$(table "$page" '## Input' 2)
bytes=${number[uplink_weave.frame_bytes]}
within() { sed -n "s/^.*number_within \([0-9]*\) \([0-9]*\) $1\$/\1 \2/p" crates/script_core/specs/Fields.antt; }
in_order "$page, ranges of fields" "MOMENT, VERSION ${number[fisb_time.first_moment]} ${number[fisb_time.last_moment]}
LAT $(within latitude)
LON $(within longitude)
SITE $(within site)
PRODUCT $(within product)
SCALE $(within scale)
HEMI  
NUMBER $(within field)
CELLS 0 $highest_intensity
SLOT $(within slot)
FRAME $(within frame)
PLACE 0 $((bytes - 1))
BYTE 00 FF
HEX  
REPORT  " "$(awk -F'\t' '{ print $1, $3, $4 }' <<< "$fields")"
unit=$(sed -n 's/^.*The longitude, a raw count of \([0-9]*\) \/ \([0-9]*\)^\([0-9]*\) degrees.*$/\1 \2 \3/p' crates/uplink_frame/src/station.rt)
in_order "$page, numbers of what fields are" "MOMENT, VERSION: 1970 $first_year $last_year
LAT: $unit
PRODUCT: ${number[life_table.regional_radar]} ${number[life_table.conus_radar]}
SCALE: 0
CELLS: ${number[script_core.CELLS]} $((${number[script_core.CELLS]} / row_of_cells)) $row_of_cells
PLACE: $bytes
BYTE: 2
HEX: $bytes $((2 * bytes))
REPORT: $(definition script_core/Fields report_in | grep -oE 'is_utf[0-9]+' | tr -d 'a-z_')" "$(numbers 2 <<< "$fields")"
sending=$(for kind in $line_kinds; do [ "$(given_words ground "$kind")" = sent ] && echo "$kind"; done)
in_order "$page, words of fields" "HEMI:$(definition script_core/Fields south_in | grep -oE 'codes "[ns]"' | sed 's/codes "\(.\)"/ \1/' | tr -d '\n')
FRAME: $sending" "$(words 2 <<< "$fields")"

# refusals and unread parts: word, numbers and name of each, in their order
refusals=$(table "$page" '## Refusals')
unread=$(table "$page" '## What is passed on unread')
in_order "$page, refusals" "$(variants Reason | while read -r name; do
    variant_words refusal_core/Refusal reason_words | grep "^$name "
done)" "$(awk -F'\t' '{ gsub(/`/, "", $1); sub(/ .*$/, "", $1); print $3, $1 }' <<< "$refusals")"
in_order "$page, what refusals say beside their word" "$(definition refusal_core/Refusal reason_words |
    grep -oE '\(reasons\.[A-Za-z]+ [a-z ]+\) = codes "[a-z]+"' | sed 's/^([^ ]* \([a-z ]*\)) = codes "\([a-z]*\)"/\2 \1/' |
    tr 'a-z' 'A-Z')" "$(cell 1 <<< "$refusals" | grep ' ' | plain | sed 's/^\([a-z]*\)/\U\1/')"
largest_scale=$(number_after ground_core/Refusal is_block 'key.scale ')
ahead=$(number_after ground_core/Refusal version_refusal 'moment \+ ')
in_order "$page, numbers of refusals" "tablelong: ${number[run_core.RING_LIMIT]} 0 ${number[run_core.TABLE_LIMIT]}
linelong: ${number[run_core.LINE_LIMIT]}
station: $((${number[fisb_app.STATION_LIMIT]} + 1))
frames: ${number[fisb_app.frame_limit]}
character PLACE: 0
textlong: ${number[dlac_text.LONGEST_TEXT]}
block: $((largest_scale + 1)) ${number[ground_core.MOST_BLANKS]} ${number[radar_core.FIRST_HIGH]}
ahead: $ahead
nofile: ${number[ground_core.FILE_NUMBERS]}" "$(numbers 2 <<< "$refusals")"
dashes=$(definition run_core/Opening is_table_end | cut -d'"' -f2)
in_order "$page, words in refusals" "tablelong: $dashes
toml: $dashes $dashes
row ROW WHY: $dashes
late: $(grep -oE 'allowed|late' <<< "$(grep -A1 '^own_refusal party table acted (hear' crates/fisb_app/specs/Reading.antt)" | head -n 1)
block: blank" "$(words 2 <<< "$refusals")"

in_order "$page, unread parts" "$(variants UnreadReason | while read -r name; do
    variant_words script_core/Printed unread_word | grep "^$name "
done)" "$(awk -F'\t' '{ gsub(/`/, "", $1); print $3, $1 }' <<< "$unread")"
shortest=${number[apdu_core.LEAST_LENGTH]}
radar_front=$(number_after radar_core/Radar radar_blocks 'length payload\) ')
bad_scale=$(number_after radar_core/Radar radar_blocks 'scale_in payload == ')
cells=${number[radar_core.CELLS]}
in_order "$page, numbers of unread parts" "kind: $(number_after receiver_core/Reception arrival_in 'frame.kind == ')
short: $shortest
segment: 0
product: ${number[life_table.text_product]} ${number[life_table.regional_radar]} ${number[life_table.conus_radar]}
files: ${number[receiver_core.MOST_SEGMENTS]}
radarshort: $radar_front
scale: $bad_scale
runs: $cells
high: ${number[radar_core.FIRST_HIGH]}" "$(numbers 2 <<< "$unread")"
in_order "$page, numbers of an unread line" "0 $(number_after apdu_core/Apdu product_of 'length body\) ')" \
    "$(numbers_in "$(paragraph "$page" 'What a reception cannot use' | grep -oE 'PRODUCT is that .* bytes. LENGTH')")"

# exit statuses: 1 comes before the program is run
ends=$(table "$page" '## Exit statuses')
in_order "$page, exit statuses" "$(sed 's/\(.*\) \(.*\)/\2 \1/' <<< "$statuses")" \
    "$(awk -F'\t' '$3 != "(none)" { print $1, $3 }' <<< "$ends")"
in_order "$page, the status of words that cannot be had" "$(sed -n 's/^number_without_words _ = //p' crates/fisb_cli/specs/Ending.antt)" \
    "$(awk -F'\t' '$3 == "(none)" { print $1 }' <<< "$ends")"
in_order "$page, numbers of exit statuses" "6: ${number[run_core.INPUT_LIMIT]}" "$(numbers 2 <<< "$ends")"

# limits: the constant that a row names is this number
limits=$(table "$page" '## Limits')
while IFS=$'\t' read -r what at_most constant; do
    in_order "$page, limits, $what" "${number[${constant/ /.}]:-}" "${at_most//,/}"
done < <(plain <<< "$limits")
in_order "$page, limits of an input" "$(sed -n 's/^\([a-z_]*\) = [0-9]*$/\U\1/p' "$(file_of run_core/Limits)")" \
    "$(cell 3 <<< "$limits" | plain | sed -n 's/^run_core \([A-Z]*_LIMIT\)$/\1/p')"
few_parts=$(number_after segment_core/Cutting TextsHaveFewParts '≤ ')
in_order "$page, numbers of limits" "characters of a report, which has then $few_parts segments or fewer: $few_parts" "$(numbers 1 <<< "$limits")"
in_order "$page, words of limits" "stations that station lines name: station
numbers of a blank line: blank" "$(words 1 <<< "$limits")"
