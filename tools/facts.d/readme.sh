# README.md, and what other documents say again of it.

# a command, and the lines that it takes; each that takes lines reads a table before them
reads=$(
    while read -r party; do
        echo "$party: table $(awk -v party="$party" '$1 == party && $2 != "empty" { print $2 }' <<< "$taken_lines" | tr '\n' ' ')"
    done < <(cut -d' ' -f1 <<< "$taken_lines" | uniq)
    echo "make: nothing"
)
reads=$(sed 's/ $//' <<< "$reads")
rows=$(table README.md '## Commands')
in_order "README.md, commands" "$(variants Command | tr 'A-Z' 'a-z')" "$(cell 1 <<< "$rows" | plain | cut -d' ' -f1)"
in_order "README.md, the words of make" "$(sed -n 's/^make_of count \([a-z]*\) = do$/make N \U\1/p' crates/fisb_app/specs/Command.antt)" \
    "$(cell 1 <<< "$rows" | plain | grep '^make')"
in_order "README.md, what commands read" "$reads" "$(paste -d' ' \
    <(cell 1 <<< "$rows" | plain | sed 's/ .*$//; s/$/:/') \
    <(cell 2 <<< "$rows" | grep -oE '^(table|nothing)') \
    <(cell 2 <<< "$rows" | quoted) | sed 's/ $//')"

# what they write: lines by their first words, and `picture` with the entries that it has
for party in link ground receive gdl; do
    written=$(awk -F'\t' -v party="\`$party\`" '$1 == party { print $3 }' <<< "$rows" |
        sed 's/`receive`/`heard`, `lost`, `noapp`, `unread`, pictures/; s/pictures/`picture` `radar` `text`/
            s/GDL 90 message, in bytes/`bytes`/' | quoted | tr ' ' '\n')
    compare "README.md, what $party writes" "$(written_words "$party")" "$written"
done
in_order "README.md, numbers in what commands read" "receive: ${number[uplink_weave.frame_bytes]}" "$(numbers 2 <<< "$rows")"
in_order "README.md, numbers in what commands write" "ground: ${number[uplink_weave.frame_bytes]}
gdl: 90" "$(numbers 3 <<< "$rows")"

# the example of a command is a script of it
while IFS=$'\t' read -r command example; do
    words=link
    if [ -e "examples/$example.words" ]; then
        words=$(tr '\n' ' ' < "examples/$example.words")
    fi
    if [ -e "examples/$example.txt" ]; then
        in_order "README.md, the example of $command" "${words%% *}" "$command"
    else
        in_order "README.md, the example of $command" "" "$example"
    fi
done < <(cut -f1,4 <<< "$rows" | plain | sed 's/ [^\t]*//')

# each clause that README names beside a call stands in docs/API.md, at a call of that name
while read -r call clause; do
    found=$(awk -v name="$call" '/^## / { crate = $2 } /^### / { item = $0; gsub(/[#` ]/, "", item); sub(/^.*::/, "", item) }
        item == name && $1 == "ensures" { print $2 }' docs/API.md | grep -x "$clause" | sort -u)
    in_order "README.md, the clause $clause of $call" "$found" "$clause"
done < <(table README.md '## What is promised, and proved' | cut -f2 | grep -oE '`[A-Za-z_]+::[A-Za-z_:]+`(, `[a-z_]+`)+' | awk '{
    gsub(/[`,]/, ""); n = split($0, words, " "); call = words[1]; sub(/^.*::/, "", call)
    for (i = 2; i <= n; i++) print call, words[i] }')


# and it is built on definitions of the file that the row names
are_built_on "README.md, definitions of promises" "$(table README.md '## What is promised, and proved' | awk -F'\t' '
    $2 == "all" { next }
    {
        gsub(/`/, "")
        file = $3
        sub(/ .*$/, "", file)
        calls = $2
        if (sub(/ of run$/, "", calls)) calls = "fisb_app::run, " calls
        n = split(calls, parts, "; ")
        for (i = 1; i <= n; i++) {
            gsub(/,/, "", parts[i])
            sub(/^Ground::/, "ground_core::", parts[i])
            sub(/^Receiver::/, "receiver_core::", parts[i])
            sub(/::(([A-Z][a-z]*|laws)::)?/, " ", parts[i])
            crate = parts[i]
            sub(/ .*$/, "", crate)
            print parts[i], (file ~ /\//) ? file : crate "/specs/" file
        }
    }')"

# the numbers of promises: how many wrong bytes a block may have, and how long a burst may be
mended=$((${number[uplink_weave.block_roots]} / 2))
burst=$(number_after uplink_weave/Laws BurstGivesPayload 'first \+ ')
in_order "README.md, numbers of promises" "$mended
${number[run_core.RING_LIMIT]}
$mended
$burst" "$(table README.md '## What is promised, and proved' | numbers 1 | sed 's/^.*: //')"

# the list of limits
speed_goals=$(sed -n 's/^    (\["\([a-z]*\)".*, \([0-9]*\)_000_000),$/\1 \2/p' bench/speed)
ratio_goal=$(sed -n 's/^.*return ratio <= \([0-9.]*\)$/\1/p' bench/speed)
speeds=$(table docs/PROMISES.md '## Measured' 3)
speed_of() { awk -F'\t' -v run="$1" '{ gsub(/`/, "", $1); sub(/ .*$/, "", $1) } $1 == run { print $2 }' <<< "$speeds"; }
goal_of() { awk -v run="$1" '$1 == run { print $2 }' <<< "$speed_goals"; }
hour="60 1 $(speed_of make) $(goal_of make)"
for run in link ground receive gdl; do
    hour="$hour $(speed_of "$run") $(goal_of "$run")"
done
in_order "README.md, numbers of limits" "An input: ${number[run_core.INPUT_LIMIT]} ${number[run_core.LINE_LIMIT]} ${number[run_core.TABLE_LIMIT]} \
${number[dlac_text.LONGEST_TEXT]} ${number[fisb_app.frame_limit]}
**Eleven wrong: $((mended + 1))
A block: ${number[radar_core.CELLS]} 0 $highest_intensity $((${number[radar_core.CELLS]} / 32)) 32
**Speed**, in: $hour $(numbers_in "$(paragraph docs/PROMISES.md 'So each is within its goal' | grep -oE '[0-9.]+ times as many')") $ratio_goal
Text of: ${number[life_table.text_product]} ${number[life_table.regional_radar]} ${number[life_table.conus_radar]}" \
    "$(points README.md '## Limits, and what is not promised' | awk '{ print $1 " " $2 "\t" $0 }' | numbers 2)"
in_order "README.md, stations" "${number[fisb_app.station_limit]}" \
    "$(points README.md '# Denimawl' | grep -oE 'may name [0-9]+ stations' | grep -oE '[0-9]+')"
in_order "README.md, statuses" "$(status_of Done) $(status_of Refused)" \
    "$(numbers_in "$(paragraph README.md '`link` is a ground and a receiver' | grep -oE 'The exit status is .* refused')")"

# the script of README.md and its output are those of an example
blocks_of_readme() { awk '/^```/ { open = !open; if (open) count++; next } open && count == wanted' wanted="$1" README.md; }
number_of() { awk '/^```/ { open = !open; if (open) count++; next } open && index($0, start) == 1 { print count; exit }' start="$1" README.md; }
in_order "README.md, the script" "$(cat examples/special_report.txt)" "$(blocks_of_readme "$(number_of ---)")"
in_order "README.md, its output" "$(cat examples/special_report.out)" "$(blocks_of_readme "$(number_of 'sent 0')")"

# the example of a station and the kit, which two documents name
compare "README.md, the kit" "$(grep -oE 'rattle-kit-[0-9a-z]+ logic [0-9a-f]+' docs/PROMISES.md | sort -u)" \
    "$(grep -oE 'rattle-kit-[0-9a-z]+ logic [0-9a-f]+' README.md | sort -u)"
