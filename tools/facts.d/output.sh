# docs/SCRIPT.md, the section on the output: the forms of lines, which line gives which, and the ranges of fields.

page=docs/SCRIPT.md

# The fields that a definition writes after a word, as the page names them: the last name of each part between `∷`.
written_fields() {
    definition "$1" "$2" | sed 's/(third_words key.third ++ decimal version/third ∷ version/; s/(counts.turns - counts.heard)/counts.lost/' |
        grep -oE "codes \"$3\" ∷.*" | sed 's/ *∷ *\[\].*$//' | awk -v word="$3" '{
            n = split($0, parts, / *∷ */)
            line = word
            for (i = 2; i <= n; i++) {
                gsub(/[()]/, "", parts[i])
                m = split(parts[i], names, " ")
                name = names[m]
                if (parts[i] ~ /^codes "/) { line = line " " name; continue }
                sub(/^.*\./, "", name)
                line = line " " toupper(name)
            }
            print line
        }' | sed "$4"
}

printed=script_core/Printed
corrected=$(sed -n 's/^  pub six : length counts ≡ \([0-9]*\)$/\1/p' crates/uplink_weave/specs/Woven.antt)
each_block=$(for ((block = 0; block < corrected; block++)); do echo -n " C$block"; done)
sent=$(written_fields "$printed" sent_line sent 's/ AIR$//')
forms=$(
    echo "sent = \"sent\"${sent#sent}"
    echo "sent = \"sent\"${sent#sent} AIR"
    written_fields "$printed" heard_words heard "s/^heard/heard = \"heard\"/; s/ ++ MAP.*//; s/ COUNTS\$/$each_block/"
    written_fields "$printed" unread_text unread 's/^unread/unread = "unread"/; s/REASON/WORD/; s/SIZE/LENGTH/'
    written_fields "$printed" lost_line lost 's/^lost/lost = "lost"/'
    written_fields "$printed" noapp_line noapp 's/^noapp/noapp = "noapp"/'
    written_fields "$printed" picture_head picture 's/^picture/picture = "picture"/'
    written_fields "$printed" entry_text text 's/^text/entry = "text"/; s/KIND/TYPE/; s/THIRD/[ THIRD ]/; s/CHARS/REPORT/'
    written_fields "$printed" entry_text radar 's/^radar/entry = "radar"/; s/SOUTH/HEMI/; s/INTENSITIES/CELLS/'
    written_fields refusal_core/Refusal refusal_text refused 's/^refused/refused = "refused"/'
    written_fields fisb_app/Make summary_text make 's/^make/summary = "make"/; s/COUNT/N/; s/UPDATES/U/; s/TURNS/T/
        s/HEARD/H/; s/LOST/L/; s/CORRECTED/C/; s/ENTRIES/E/'
)
in_order "$page, the forms of lines out" "$forms" "$(grammar "$page" 2 | sed 's/ (in [a-z]*)$//' | awk '
    $1 != "|" { name = $1 }
    $1 == "|" { sub(/^ *\|/, name " ="); }
    name != "output" { sub(/^ */, ""); print }')"
in_order "$page, the output" "$(written_words link | sed '/^radar$/d; s/^text$/entry/' | tr '\n' ' ')refused" \
    "$(grammar "$page" 2 | sed -n 's/^output = //p' | tr -d '{}[]|' | tr -s ' ' | sed 's/^ //; s/ $//')"

# which line gives which words: each kind, and where commands differ each command
given_by() {
    local all=''
    while read -r party kind; do
        if [ "$kind" = "$1" ] && { [ -z "${2:-}" ] || [ "$party" = "$2" ]; }; then
            all="$all $(given_words "$party" "$kind" | sed '/^radar$/d; s/^text$/entries/' | tr '\n' ' ')"
        fi
    done <<< "$taken_lines"
    tr ' ' '\n' <<< "$all" | grep . | awk '!seen[$1]++' | tr '\n' ' ' | sed 's/^$/none/; s/ $//'
}
silent=""
for kind in $line_kinds; do
    if [ -z "$(given_by "$kind")" ]; then
        silent="$silent $kind"
    fi
done
in_order "$page, lines out" "$silent: none
turn: $(given_by turn)
hear rx receive: $(given_by hear)
rx gdl: $(given_by rx gdl)
show: $(given_by show)
a line at fault: $(definition refusal_core/Refusal refusal_text | grep -oE 'codes "[a-z]+"' | cut -d'"' -f2) gdl" "$(
    table "$page" '## Output' | awk -F'\t' '
        { sub(/^empty/, "`empty`", $1); sub(/^none$/, "`none`", $2); sub(/as many entries/, "`entries`", $2) }
        $2 ~ /^no line: the bytes of a message/ && $2 ~ /nothing if the frame is lost$/ { $2 = "`bytes`" }
        {
            gsub(/COUNT/, "", $2)
            left = $1
            if (left ~ /`/) {
                n = split($1, parts, "`")
                left = ""
                for (i = 2; i <= n; i += 2) left = left (left == "" ? "" : " ") parts[i]
            }
            n = split($2, parts, "`")
            right = ""
            for (i = 2; i <= n; i += 2) right = right " " parts[i]
            print left ":" right
        }' | sed "1s/^/ /"
)"
in_order "$page, what hear and rx of receive give" "$(given_by hear)" "$(given_by rx receive)"

# the ranges and numbers of the fields
fields=$(table "$page" '## Output' 2)
last_block=$((corrected - 1))
most_words=$(sed -n 's/^  pub words : .*(row.words ≡ \([0-9]*\))$/\1/p' crates/life_table/specs/Rules.antt)
in_order "$page, numbers of fields out" "INDEX: 0
BODIES, USED: 0 ${number[uplink_frame.frame_room]}
AIR: ${number[uplink_weave.frame_bytes]} $((2 * ${number[uplink_weave.frame_bytes]}))
C0 to C5: $corrected 0 $((${number[uplink_weave.block_roots]} / 2))
BLOCK: 0 $last_block
TYPE, PLACE, THIRD: $most_words
LINE: 1" "$(numbers 2 <<< "$fields")"
named=$(cut -f1 <<< "$fields" | sed "s/C0 to C$last_block/${each_block# }/" | tr -d ',' | tr ' ' '\n')
# those of the lines out that no line in has or that mean another thing there, without what other sections of the page tell
known=$(grammar "$page" 1 | grep -oE '\b[A-Z]+\b' | grep -vxE 'SLOT|SITE|VERSION|REPORT|PLACE')
elsewhere='WORD|KIND|PRODUCT|LENGTH|COUNT|REASON|N|SEED|HEMI'
in_order "$page, names of fields out" \
    "$(grammar "$page" 2 | grep -oE '\b[A-Z][A-Z0-9]*\b' | sort -u | grep -vxF "$known" | grep -vxE "$elsewhere")" "$(sort <<< "$named")"
escapes=$(definition dlac_text/Plain plain_character | grep -oE '92 ∷ [0-9]+' | awk '{ printf " \\%c", $3 }')
in_order "$page, words of fields out" "TYPE, PLACE, THIRD: words = $most_words
REPORT:$escapes" "$(words 2 <<< "$fields")"
in_order "$page, numbers of a lost reception" "$((${number[uplink_weave.block_roots]} / 2))" \
    "$(numbers_in "$(paragraph "$page" 'A reception is `lost`' | grep -oE '^.* places.')")"
