# Reads each table `Bytes | Say` of a document (docs/FORMATS.md) that follows a block `payload N` or `message N`: its bytes have to be the next
# ones of that payload (what is left out between rows is 0, or `..`), and what they say has to be what the formats make of them. It
# prints what differs, and last how many rows are right and how many are not.

function value(hex,    n, i) {
    n = 0
    for (i = 1; i <= length(hex); i++) n = 16 * n + index("0123456789abcdef", tolower(substr(hex, i, 1))) - 1
    return n
}

# so many bits of the payload from a bit on, as a number
function bits(start, width,    n, i, byte) {
    n = 0
    for (i = start; i < start + width; i++) {
        byte = payload[int(i / 8)]
        n = 2 * n + int(byte / 2 ^ (7 - i % 8)) % 2
    }
    return n
}

function character(code) {
    if (code >= 1 && code <= 26) return substr("ABCDEFGHIJKLMNOPQRSTUVWXYZ", code, 1)
    if (code >= 32) return sprintf("%c", code)
    return ""
}

# the information frame around a byte, and the parts of its APDU
function find_frame(at,    place) {
    for (place = 8; place < 432; place = place + 2 + frame_length) {
        frame_length = bits(8 * place, 9)
        if (at < place + 2 + frame_length || frame_length == 0) break
    }
    frame_start = place
    header = 8 * (place + 2)
    product = bits(header + 3, 11)
    is_cut = bits(header + 14, 1)
    form = bits(header + 15, 2)
    time = header + 17
    dated = form > 1
    clock = time + (dated ? 9 : 0)
    behind = clock + 11 + (form % 2 ? 6 : 0)
    content = place + 2 + int((behind - header + (is_cut ? 28 : 0) + 7) / 8)
    frame_end = place + 2 + frame_length
}

function said_time(    text) {
    text = sprintf("%02d:%02d", bits(clock, 5), bits(clock + 5, 6))
    if (form % 2) text = text sprintf(":%02d", bits(clock + 11, 6))
    if (dated) text = bits(time + 4, 5) " " months[bits(time, 4)] " " text
    return text
}

function said_apdu(say,    text) {
    text = "APDU: " (say ~ /no flags/ && !bits(header, 3) ? "no flags, " : "") "product " product ", "
    text = text (is_cut ? "segment fields" : "no segment") ", form " form ", " said_time()
    if (is_cut) text = text "; file " bits(behind, 10) ", " bits(behind + 10, 9) " segments, number " bits(behind + 19, 9)
    return text
}

function said_station(say,    lat, lon, text) {
    lat = bits(0, 23)
    lon = bits(23, 24)
    if (lat == 0 && lon == 0 && !bits(47, 1))
        return "no station was named: position 0, not valid; slot " bits(51, 5) ", site " bits(56, 4)
    text = "latitude " lat " (" sprintf("%.3f", lat * 360 / 2 ^ 24) " degrees north), longitude " lon " ("
    lon = lon * 360 / 2 ^ 24
    return text sprintf("%.4f", lon) " east, which is " sprintf("%.4f", 360 - lon) " west), position " (bits(47, 1) ? "valid" : "not valid")
}

# the codes of bytes of a text, and their characters
function said_codes(say, start, count,    bit, code, list, text, i, named, last) {
    bit = 8 * content
    while (bit < 8 * start) bit += 6
    for (; bit + 6 <= 8 * (start + count); bit += 6) {
        code = bits(bit, 6)
        list = list " " code
        last = code
        if (code == 30) text = text "` and the newline`"
        else if (code == 31) text = text "`, the vertical bar, `"
        else if (code == 27) text = text "`, U+001A, and the end`"
        else text = text character(code)
    }
    if (last == 27 && bits(bit, 6) == 0) list = list " and 0"
    text = "`" text "`"
    sub(/``$/, "", text)
    return "codes" list ": " text (say ~ /and so on$/ ? " and so on" : "")
}

# the whole text of an APDU from its first byte, up to its end
function report(    bit, code, text) {
    for (bit = 8 * content; bit + 6 <= 8 * frame_end; bit += 6) {
        code = bits(bit, 6)
        if (code == 0) break
        text = text character(code)
    }
    return text
}

function said_runs(start, count,    text, i, byte, runs, same) {
    same = payload[start + 3]
    for (i = start + 3; i < start + count; i++) {
        if (payload[i] != same) return "other runs"
        runs++
    }
    text = "run record of block " bits(8 * start + 4, 20) ", " (bits(8 * start + 1, 1) ? "south" : "north") ", scale " bits(8 * start + 2, 2)
    return text ": " words[runs] " runs of " int(same / 8) + 1 " cells of intensity " same % 8
}

function said_blanks(start,    base, byte, bit) {
    base = bits(8 * start + 4, 20)
    byte = payload[start + 3]
    for (bit = 4; bit < 8; bit++) if (int(byte / 2 ^ bit) % 2) break
    return "empty record, base " base "; length " byte % 16 ", and " sprintf("0x%02X", 2 ^ bit) " is offset " bit - 3 ": block " base + bit - 3
}

# what bytes say, in the words of the row
function said(say, start, count,    text) {
    find_frame(start)
    if (start == 0) return said_station(say)
    if (say ~ /^UTC coupled/)
        return (bits(48, 1) ? "UTC coupled" : "not UTC coupled") ", application data " (bits(50, 1) ? "valid" : "not valid") ", slot " bits(51, 5)
    if (start == 6) return "slot " bits(51, 5)
    if (start == 7) return "site " bits(56, 4)
    if (start == frame_start) {
        text = "information frame: " bits(8 * start, 9) " bytes, type " bits(8 * start + 12, 4)
        return text (frame_end == 432 ? "; with these two it fills the " 432 - 8 : "")
    }
    if (start == frame_start + 2 && say == "the same header") return said_apdu(say) == last_apdu ? say : said_apdu(say)
    if (start == frame_start + 2 && say ~ /^the same file/) return "the same file, number " bits(behind + 19, 9)
    if (start == frame_start + 2) return last_apdu = said_apdu(say)
    if (start == content && say ~ /^run record/) return said_runs(start, count)
    if (start == content && say ~ /^empty record/) return said_blanks(start)
    if (say ~ /^codes/) return said_codes(say, start, count)
    if (say ~ /^the first [0-9]+ bytes of the text/) return "the first " frame_end - content " bytes of the text: `" substr(report(), 1, 8) " ..`"
    if (say ~ /^the other [0-9]+ bytes/) return "the other " frame_end - content " bytes" substr(say, index(say, " bytes") + 6)
    if (say ~ /^the last characters/) return "the last characters, `" substr(report(), length(report()) - 3) "`, the end of the report, and fill"
    return "`" report() "`"
}

function tell(text) { failed++; print "golden: " FILENAME ", the bytes " $2 ": " text }

# the place of the row's bytes: the next ones, or after what may be left out
function place_of(n, open,    place, i) {
    for (place = position; place + n <= 432; place++) {
        for (i = 0; i < n && payload[place + i] == row[i]; i++) ;
        if (i == n) return place
        if (!open && payload[place] != 0) return -1
    }
    return -1
}

function check(bytes, say,    n, i, parts, open, place, found) {
    open = first_row || left_out || bytes ~ /^\.\./
    left_out = bytes ~ /\.\.$/
    gsub(/\.\./, "", bytes)
    n = split(bytes, parts, " ")
    for (i = 1; i <= n; i++) row[i - 1] = value(parts[i])
    place = place_of(n, open)
    if (place < 0) { tell("they are not the next of the payload"); return }
    position = place + n
    if ($2 ~ /then zeros/) for (i = position; i < 432; i++) if (payload[i] != 0) { tell("not only zeros follow"); return }
    found = said(say, place, n)
    if (found != say) tell("they say '" found "', and not '" say "'")
    else right++
}

BEGIN {
    FS = " *\\| *"
    split("January February March April May June July August September October November December", months, " ")
    split("one two three four five six seven eight", words, " ")
}
/^```payload / { inside = 1; count = 0; known = 1; next }
/^```/ {
    if (inside) while (count < 432) payload[count++] = 0
    inside = 0
}
inside { n = split($0, digits, " "); for (i = 1; i <= n; i++) payload[count++] = value(digits[i]); next }
/^\| Bytes/ { rows = known; first_row = 1; position = 0; left_out = 0; getline; next }
!/^\|/ { rows = 0 }
rows {
    bytes = $2
    sub(/^[^`]*`/, "", bytes)
    sub(/`.*$/, "", bytes)
    check(bytes, $3)
    first_row = 0
}
END { print right + 0, failed + 0 }
