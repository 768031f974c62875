# docs/FORMATS.md: widths and places of fields, forms, codes and faults. What its golden frames say is for tools/golden.

page=docs/FORMATS.md
payload=${number[uplink_frame.payload_length]}
room=${number[uplink_frame.frame_room]}
air=${number[uplink_weave.frame_bytes]}
roots=${number[uplink_weave.block_roots]}
first_root=${number[uplink_weave.first_root]}
block=${number[uplink_weave.block_bytes]}
blocks=$((air / block))
part=$((block - roots))

# a frame on the air
modulus=${number[gf256_core.UAT_MODULUS]}
powers=""
for ((power = 15; power > 1; power--)); do
    if ((modulus >> power & 1)); then
        powers="$powers $power"
    fi
done
generator=$(number_after rs_code/CodeWord power_sum 'element_power ')
in_order "$page, a frame on the air" "payload: $payload $blocks $part
blocks: $blocks 0 $((blocks - 1)) $roots $block
order on the air: $blocks $air
field: 256$powers 1 $modulus $generator
code: $block $part 0 $generator $first_root $generator $((first_root + 1)) $generator $((first_root + roots - 1))
byte order of a block: $((block - 1))
corrected: $((roots / 2))" "$(table "$page" '## A frame on the air' | numbers 2)"

# The header: name, width and place of each field. The page says a place in words; they are read as the first bit.
header=$(side_by_side uplink_frame/UplinkFrame header_bytes | awk '
    BEGIN {
        names["h.lat"] = "latitude"; names["h.lon"] = "longitude"; names["h.position_valid"] = "position valid"
        names["h.utc"] = "UTC coupled"; names["h.app_valid"] = "application data valid"; names["h.slot"] = "slot"
        names["h.site"] = "TIS-B site"; names["0"] = "reserved"
    }
    { print names[$NF] ": " $1 " from bit " start + 0; start += $1 }')
in_order "$page, the header" "$header" "$(table "$page" '## The payload' | awk -F'\t' '
    BEGIN { n = split("one two three four five six seven eight", words, " "); for (i = 1; i <= n; i++) value[words[i]] = i }
    function of(text) { return (text in value) ? value[text] : text + 0 }
    {
        sub(/,.*$/, "", $1)
        n = split($3, w, " ")
        first = -1
        last = -1
        for (i = 1; i <= n; i++) if (w[i] == "byte") {
            at = 8 * (w[i + 1] + 0)
            if (i > 3 && w[i - 1] == "of" && w[i - 2] == "bit") { from = at + 7; to = from }
            else if (i > 3 && w[i - 1] == "of" && w[i - 3] == "high") { to = at + of(w[i - 4]) - 1; from = at }
            else if (i > 4 && w[i - 1] == "of" && w[i - 2] == "bits" && w[i - 4] == "low") { from = at + 8 - of(w[i - 3]); to = at + 7 }
            else if (i > 4 && w[i - 1] == "of" && w[i - 2] == "bits" && w[i - 4] == "high") { from = at; to = at + of(w[i - 3]) - 1 }
            else if (w[i + 2] ~ /^0x[8421]0$/) { from = at + index("8421", substr(w[i + 2], 3, 1)) - 1; to = from }
            else { from = at; to = at + 7 }
            if (i > 3 && w[i - 2] == "bits" && w[i - 3] == "high" && first < 0) from = at
            if (first < 0) first = from
            last = to
        }
        print $1 ": " $2 " from bit " first (last - first + 1 == $2 ? "" : " but " last - first + 1 " bits")
    }')"
unit=$(sed -n 's/^.*The longitude, a raw count of \([0-9]*\) \/ \([0-9]*\)^\([0-9]*\) degrees.*$/\1 \2 \3/p' crates/uplink_frame/src/header.rt)
below() { sed -n "s/^  pub $1 : h.$1 < \([0-9]*\)\$/\1/p" crates/uplink_frame/specs/UplinkFrame.antt; }
in_order "$page, numbers of the header" "latitude, in units of 360 / 2^24 degrees: $unit
slot, 0 to 31: 0 $(($(below slot) - 1))
TIS-B site, 0 to 15: 0 $(($(below site) - 1))" "$(table "$page" '## The payload' | numbers 1)"
in_order "$page, sizes of the payload" "$((payload - room)) $((payload - room)) $room" \
    "$(numbers_in "$(paragraph "$page" 'The header has')") $(numbers_in "$(paragraph "$page" 'From byte')")"

# information frames
front=$(side_by_side uplink_frame/UplinkFrame frame_front)
width_of() { awk -v name="$1" '$NF == name { print $1 }' <<< "$front"; }
in_order "$page, an information frame" "length of the body $(width_of size)
reserved $(width_of reserved)
type $(width_of kind)
body 8 times the length" "$(table "$page" '## The payload' 2 | sed 's/[,:][^\t]*//' | tr '\t' ' ')"
in_order "$page, numbers of an information frame" "length of the body, 0 to 511: 0 $((2 ** $(width_of size) - 1))
type: 0 is a FIS-B APDU: $(number_after uplink_frame/UplinkFrame fisb_frame 'kind = ')" \
    "$(table "$page" '## The payload' 2 | numbers 1)"

# the APDU: the widths of its header, and what each form makes of them
apdu=apdu_core/Apdu
widths=$(side_by_side "$apdu" header_fields | cut -d' ' -f1)
time=$(side_by_side "$apdu" time_fields)
width_in_time() { awk -v name="t.$1" '$2 == name { print $1 }' <<< "$time"; }
segment=$(side_by_side "$apdu" segment_fields | cut -d' ' -f1 | tr '\n' ' ' | sed 's/ $//; s/ /, /g')
form_number() { sed -n "s/^form_number $1 = //p" "$(file_of "$apdu")"; }
in_order "$page, widths of an APDU" "$widths
$(width_in_time month), $(width_in_time day)
$(width_in_time hours), $(width_in_time minutes)
$(width_in_time seconds)
$segment
0 to 7
the rest of the body" "$(table "$page" '## The APDU' | cell 2)"
dated=$((1 + $(definition "$apdu" has_date | grep -oE 'nat_lt [0-9]+' | cut -d' ' -f2)))
with_seconds=$(definition "$apdu" has_seconds | grep -oE '== [0-9]+' | cut -d' ' -f2 | tr '\n' ' ')
in_order "$page, numbers of an APDU" "0
${number[life_table.text_product]} ${number[life_table.regional_radar]} ${number[life_table.conus_radar]}
$dated $(form_number DaySecond)
${with_seconds% }
1 1
0" "$(table "$page" '## The APDU' | numbers 1 | sed 's/^.*: //; s/.*://; s/^ //')"
in_order "$page, names of an APDU" "flags
product
flag S
time form
month, day
hours, minutes
seconds
file number, count of segments, segment number
fill to a whole byte
payload" "$(table "$page" '## The APDU' | cell 1 | sed 's/ A, G, P//; s/[:(].*$//; s/ from 1.*//; s/ $//')"

body=${number[segment_core.body_limit]}
front_width=$(definition "$apdu" header_width | grep -oE '= [0-9]+' | cut -d' ' -f2)
segment_width=$(definition "$apdu" header_width | grep -oE 'then [0-9]+' | cut -d' ' -f2)
rounded() { echo $((($1 + 7) / 8)); }
characters=""
forms=$(while read -r form width; do
    name=$(form_number "$form")
    said="hours, minutes"
    if ((name >= dated)); then
        said="month, day, $said"
    fi
    if [[ " $with_seconds " == *" $name "* ]]; then
        said="$said, seconds"
    fi
    whole=$(rounded $((front_width + width)))
    cut=$(rounded $((front_width + width + segment_width)))
    printf '%s\t%s\t%s\t%s\t%s\t%s\n' "$name" "$said" "$whole" "$cut" $((body - whole)) $((body - cut))
done < <(sed -n 's/^ *TimeForm::\([A-Za-z]*\) => \([0-9]*\),$/\1 \2/p' crates/apdu_core/src/sizes.rt))
in_order "$page, sizes in each form" "$forms" "$(table "$page" '## The APDU' 2 | sed 's/ bytes//g')"
for whole in $(cut -f5 <<< "$forms"); do
    characters="$characters $(((8 * whole + 7 - 13) / 6))"
done
in_order "$page, characters in each form" "$body$characters" "$(numbers_in "$(paragraph "$page" 'A body of')")"

# the moments that times name are those of the tests of naming
tests=crates/wire_trials/src/times.rt
named=$(tr -d '\n_' < "$tests" | grep -oE 'let received = [0-9]+;|namedat\(&hourandminute\([0-9]+, [0-9]+\), received\), *Some\([0-9]+\)' | awk '
    /^let/ { gsub(/[^0-9]/, ""); received = $0; next }
    { gsub(/[^0-9]+/, " "); printf "0 %02d:%02d %s %s\n", $1, $2, received, $3 }')
leap_test='for received in \[[0-9]+, [0-9]+\] \{ *assert[^;]*; *namedin\(TimeForm::DayMinute, &noonof\(2, 29\), received\), *Some\([0-9]+\)'
leap=$(tr -d '\n_' < "$tests" | grep -oE "$leap_test" |
    awk '{ gsub(/[^0-9]+/, " "); print "2 29 February 12:00", $2, $NF }')
in_order "$page, moments that times name" "$named
$leap" "$(table "$page" '## The APDU' 3 | awk -F'\t' '{ sub(/:/, "", $1); sub(/ .*/, "", $2); sub(/,.*/, "", $3); print $1, $2, $3 }')"
in_order "$page, how far they are" "$(while read -r _ _ received name; do
    echo "$(date -u -d "@$received" +%H:%M:%S) $((name - received))"
done <<< "$named")
$(date -u -d "@$(awk '{ print $5 }' <<< "$leap")" +%Y) $(date -u -d "@$(awk '{ print $6 }' <<< "$leap")" +%Y)" "$(
    table "$page" '## The APDU' 3 | awk -F'\t' '
        NR == 1 { clock = $2; sub(/^.*\(/, "", clock); sub(/\)$/, "", clock) }
        $3 ~ /minutes before$/ { print clock, -60 * ($3 ~ /two minutes/ ? 2 : 0) }
        $3 ~ /a minute ahead$/ { print clock, 60 }
        $3 ~ /the day before$/ { print clock, "day" }
        $1 ~ /^2/ { sub(/^.*\(/, "", $2); sub(/\)$/, "", $2); sub(/^.* /, "", $3); print $2, $3 }' |
        sed "s/day\$/$(($(awk 'NR == 3 { print $4 - $3 }' <<< "$named")))/")"

# the six-bit codes, by the numbers of their characters
alphabet=$(definition dlac_text/Alphabet code_of)
letters=$(grep -oE 'is_in_range [0-9]+ [0-9]+ character then character - [0-9]+' <<< "$alphabet" | tr -cd '0-9 ' | tr -s ' ')
read -r first last below <<< "$letters"
code_of() { grep -oE "character == $1 then [0-9]+" <<< "$alphabet" | grep -oE '[0-9]+$'; }
itself=$(definition dlac_text/Alphabet is_in_alphabet | grep -oE 'is_in_range [0-9]+ [0-9]+' | sed -n 2p | cut -d' ' -f2,3)
letter() { printf "\\$(printf %03o "$1")"; }
in_order "$page, codes" "${number[dlac_text.END]} and ${number[dlac_text.OTHER_END]}	the end of a report
$((first - below)) to $((last - below))	$(letter "$first") to $(letter "$last")
$(code_of 26)	U+001A
${number[dlac_text.TAB]}	TAB
$(code_of 10)	newline
$(code_of 124)	vertical bar
${itself/ / to }	the ASCII character of that number" "$(table "$page" '## Text in six-bit codes' | sed 's/:.*$//')"
in_order "$page, numbers of codes" "27: U+001A
${number[dlac_text.TAB]}: 0 63" "$(table "$page" '## Text in six-bit codes' | numbers 2)"

# radar records: the first three bytes, the bitmap, the faults
front=$(side_by_side radar_core/Keys front_bytes)
in_order "$page, the front of a radar record" "$(cut -d' ' -f1 <<< "$front")" "$(table "$page" '## Radar records' | cell 2)"
in_order "$page, names at the front of a radar record" "$(sed 's/^[0-9]* //; s/bit is_run/run flag/; s/bit key.south/hemisphere/
    s/key.scale/scale/; s/key.number/block number/' <<< "$front")" \
    "$(table "$page" '## Radar records' | cell 1 | sed 's/[:,].*//')"
largest_scale=$(sed -n 's/^  pub scale : key.scale ≤ \([0-9]*\)$/\1/p' crates/radar_core/specs/Keys.antt)
in_order "$page, numbers at the front of a radar record" "run flag: $(number_after radar_core/Keys is_run_in '== ') 0
hemisphere: 1
scale: 0 $largest_scale" "$(table "$page" '## Radar records' | numbers 1 | sed 's/, [^:]*:/:/; s/:[^:]*:/:/')"

# the offset of a bit of the bitmap, as `is_named` has it: bit j of byte i is offset 8 i + j less this
less=$(definition radar_core/Blanks is_named | grep -oE 'offset \+ [0-9]+\) / 8' | tr -cd '0-9 ' | cut -d' ' -f3)
front_masks=$(for ((bit = less + 1; bit < 8; bit++)); do printf '0x%02X ' $((1 << bit)); done)
front_offsets=$(for ((bit = less + 1; bit < 8; bit++)); do echo -n "$((bit - less)) "; done)
in_order "$page, bits and offsets" "byte 3: ${front_masks}L 1 more is $front_offsets
byte 3 + i: i is 1 to L - 1: 0x01 0x02 .. 0x80 is 8i - $less, 8i - $((less - 1)), .. 8i + $((7 - less))" "$(table "$page" '## Radar records' 2 | sed '
    1s/^byte 3: \(.*\), if L is 1 or more\t\(.*\)$/byte 3: \1 L 1 more is \2 /
    1s/,//g
    2s/^byte 3 + i, for i from 1 to L − 1: 0x01, \(.*\), \.\. \(.*\)\t/byte 3 + i: i is 1 to L - 1: 0x01 \1 .. \2 is /
    2s/−/-/g')"
faults=$(table "$page" '## Radar records' 3)
in_order "$page, faults of radar" "$(variants RadarFault)" "$(cell 1 <<< "$faults" | plain)"
radar=$(definition radar_core/Radar radar_blocks)
in_order "$page, numbers of faults of radar" "Short: $(grep -oE 'length payload\) [0-9]+' <<< "$radar" | cut -d' ' -f3)
BadScale: $((largest_scale + 1))
RunsNot128: ${number[radar_core.CELLS]}
HighEmpty: ${number[radar_core.FIRST_HIGH]}
BadBitmap: 1 $(grep -oE 'drop [0-9]+' <<< "$radar" | head -n 1 | cut -d' ' -f2)" "$(numbers 2 <<< "$faults")"

# what records say is what the tests of blocks say of the same bytes
trials=$(tr -d '\n' < crates/wire_trials/src/blocks.rt | tr -s ' ')
said_of() {
    local bytes
    bytes=$(sed 's/ /, 0x/g; s/^/0x/' <<< "$1" | tr 'A-F' 'a-f')
    {
        grep -oE "names\( ?&\[$bytes\], &\[[^]]*\]" <<< "$trials" | sed 's/^.*&\[//'
        grep -oE "written_blank\(&rt, [0-9_]+, &\[[^]]*\], &\[$bytes\]" <<< "$trials" | sed 's/^written_blank(&rt, //; s/, &\[0x.*//'
    } | head -n 1 | tr -d '_&[]' | tr -s ', ' ' ' | sed 's/ $//'
}
# the record of a block that is the same in all cells, by the widths above: its front, and the length and intensity of its runs
said_of_runs() {
    local front=$((16#$(cut -d' ' -f1-3 <<< "$1" | tr -d ' '))) runs
    runs=$(cut -d' ' -f4- <<< "$1" | tr ' ' '\n')
    echo "$((front & 0xFFFFF)) $((front >> 20 & 3)) $(wc -l <<< "$runs") $(((16#$(head -n 1 <<< "$runs") >> 3) + 1)) \
$((16#$(head -n 1 <<< "$runs") & 7))$(((front >> 22 & 1) == 0 && front >> 23 == 1)) $(sort -u <<< "$runs" | wc -l)"
}
records=$(table "$page" '## Radar records' 4 | plain)
in_order "$page, records that are decoded" "run record empty record" "$(
    grep -q 'runs of' <<< "$records" && echo -n 'run record '
    grep -q 'are empty' <<< "$records" && echo 'empty record')"
while IFS=$'\t' read -r bytes said; do
    if [[ $said == *'runs of'* ]]; then
        in_order "$page, what $bytes says" "$(said_of_runs "$bytes")" "$(numbers_in "$said")$(grep -c north <<< "$said") 1"
    else
        base=""
        if [[ $said == base* ]]; then
            base="$((16#$(cut -d' ' -f1-3 <<< "$bytes" | tr -d ' ') & 0xFFFFF)) "
        fi
        in_order "$page, what $bytes says" "$base$(said_of "$bytes")" "$(numbers_in "$said")"
    fi
done <<< "$records"

# damages of messages
damages=$(table "$page" '## Messages to displays')
in_order "$page, damages" "$(variants Damage)" "$(cell 1 <<< "$damages" | plain)"
hex() { printf '%X ' "$1"; }
reading=crates/gdl90_core/specs/Reading.antt
read -r escape escaped_escape escaped_flag <<< "$(for name in ESCAPE ESCAPED_ESCAPE ESCAPED_FLAG; do hex "${number[gdl90_core.$name]}"; done)"
in_order "$page, numbers of damages" "a $escape is not followed by $escaped_escape or $escaped_flag
$(sed -n 's/^BytesSay bytes (damaged Short) = length bytes < //p' "$reading")
$(sed -n 's/^BytesSay bytes (damaged TooLong) = \([0-9]*\) < length bytes$/\1/p' "$reading")
2" "$(cell 2 <<< "$damages" | sed -n 1p)
$(table "$page" '## Messages to displays' | sed 1d | numbers 2 | sed 's/^.*: //')"
