# docs/CALLING.md: the answers of calls, and the callers that it quotes.

page=docs/CALLING.md
mended=$((${number[uplink_weave.block_roots]} / 2))

# the variants of an enum, with the fields that a document shows of each: `Clock { kept }`, `BadText(fault)`
answers_of() {
    awk -v start="pub enum $1 {" '
        $0 == start { inside = 1; next }
        /^}/ { inside = 0 }
        !inside || /^ *(\/\/\/|#\[)/ { next }
        /^    [A-Z][A-Za-z]* \{$/ { sub(/ \{$/, "", $0); open = $1; fields = ""; next }
        /^        [a-z_]+:/ { sub(/:.*$/, "", $1); fields = fields (fields == "" ? "" : ", ") $1; next }
        /^    },$/ { print open " { " fields " }"; next }
        /^    [A-Z][A-Za-z]* \{ .* \},$/ { name = $1; sub(/^[^{]*\{ /, ""); gsub(/: [A-Za-z0-9]+/, ""); sub(/,$/, ""); print name " { " $0; next }
        /^    [A-Z][A-Za-z]*\(.*\),$/ { sub(/\(.*$/, "(fault)", $1); print $1; next }
        /^    [A-Z]/ { sub(/,$/, "", $1); print $1 }
    ' "$2"
}
documented_answers() { table "$page" "$1" | cell 1 | quoted | sed 's/ *Err(/\nErr(/g' | grep . | sed 's/^Err(\(.*\))$/\1/'; }
in_order "$page, answers of hear" "Ok(heard)
$(answers_of HearFault crates/receiver_core/src/heard.rt)" "$(documented_answers '## A receiver')"
in_order "$page, answers of give_text" "$(answers_of GiveFault crates/ground_core/src/fault.rt | grep -vx BadBlock)
Ok(())" "$(documented_answers '## A ground')"
in_order "$page, numbers of the answers of hear" "Err(Lost { block }): $mended" "$(table "$page" '## A receiver' | numbers 2)"
in_order "$page, numbers of the answers of give_text" "Err(BadText(fault)): ${number[dlac_text.LONGEST_TEXT]}" \
    "$(table "$page" '## A ground' | numbers 2)"
in_order "$page, a minute ahead" "$(number_after ground_core/Refusal version_refusal 'moment \+ ')" \
    "$(table "$page" '## A ground' | sed -n 's/^.*more than a minute ahead.*$/60/p')"
in_order "$page, numbers of every call" "**Moments** never: $first_year $last_year" \
    "$(points "$page" '## What holds of every call' | awk '{ print $1 " " $2 "\t" $0 }' | numbers 2)"
in_order "$page, bytes that calls take" "${number[uplink_weave.frame_bytes]} ${number[uplink_frame.payload_length]}" \
    "$(grep -oE '`hear` the [0-9]+' "$page" | cut -d' ' -f3) $(grep -oE '^`hear_payload` takes the [0-9]+' "$page" | cut -d' ' -f4)"

# each block of these pages that names a file is that file from its first doc comment on
for page in docs/CALLING.md crates/uses/README.md; do
    while read -r file; do
        quotation=$(awk -v start="\`\`\`rust $file" '$0 == "```" { inside = 0 } inside; $0 == start { inside = 1 }' "$page")
        in_order "$page, $file" "$(sed -n '/^\/\/\/ /,$p' "$file")" "$quotation"
    done < <(sed -n 's/^```rust \(crates.*\)$/\1/p' "$page")
done

# each call that a row of the smaller parts names is a public one
calls_in() { grep -oE '`[a-z0-9]+_[a-z0-9]+::[A-Za-z_:]+`' <<< "$1" | plain; }
while IFS=$'\t' read -r what calls; do
    in_order "docs/CALLING.md, smaller parts, $what" "$(calls_in "$calls" | while IFS=: read -r crate _ name; do
        awk -v crate="$crate" -v name="$name" '
            /^## / { inside = ($2 == crate) }
            inside && $0 == "### `" name "`" { print crate "::" name }' docs/API.md
    done)" "$(calls_in "$calls")"
done < <(table docs/CALLING.md '## Smaller parts')
over=$(table docs/CALLING.md '## Smaller parts' | grep '::run_[a-z]*_over`')
in_order "docs/CALLING.md, the command over another receiver" "$(sed 's/^.*::run_\([a-z]*\)_over`.*$/\1/' <<< "$over")" \
    "$(cell 1 <<< "$over" | quoted)"
in_order "docs/CALLING.md, its trait" "$(grep -oE '^pub trait [A-Za-z]+' crates/fisb_app/src/ear.rt | cut -d' ' -f3)" \
    "$(cell 2 <<< "$over" | quoted | cut -d' ' -f2)"
