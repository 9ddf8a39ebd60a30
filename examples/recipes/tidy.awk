# An instance as other programs write it, as one that tsp reads: keywords in capital letters, EOF on a line of its own,
# and the depot's node where DEPOT_SECTION has its coordinates.
function fail(words) {
    print "tidy: " words | "cat 1>&2"
    exit status = 1
}
function put_depot(k, found) {
    inside = 0
    if (count == 2 && !(is_node(depot[1]) && is_node(depot[2]))) {
        for (k = 1; k <= nodes; k++)
            if (x[k] == depot[1] + 0 && y[k] == depot[2] + 0)
                found = found " " name[k]
        if (split(found, one) != 1)
            fail("line " at ": DEPOT_SECTION has coordinates, and they are those of " (found ? "several nodes:" found : "no node"))
        depot[1] = one[1]
        count = 1
    }
    for (k = 1; k <= count; k++)
        put(depot[k])
    put("-1")
}
function is_node(word) { return word ~ /^[1-9][0-9]*$/ && (!nodes || word + 0 <= nodes) }
function put(text) { out[++lines] = text } # nothing is written of an instance that is refused
BEGIN {
    split("NAME TYPE COMMENT DIMENSION CAPACITY SCALE LOAD_UNIT EDGE_WEIGHT_TYPE EDGE_WEIGHT_FORMAT NODE_COORD_TYPE DISPLAY_DATA_TYPE " \
        "NODE_COORD_SECTION DISPLAY_DATA_SECTION DEMAND_SECTION DEPOT_SECTION FIXED_EDGES_SECTION EDGE_WEIGHT_SECTION TOUR_SECTION EOF", list)
    for (k in list)
        known[list[k]] = 1
}
over { next }
{
    sub(/\r$/, "") # lines of Windows end in bytes 13 and 10
    text = $0
    keyword = text
    sub(/^[ \t]+/, "", keyword)
    sub(/[ \t]*:.*/, "", keyword)
    sub(/[ \t]+$/, "", keyword)
    keyword = toupper(keyword)
}
keyword in known {
    if (inside)
        put_depot()
    value = ""
    if (index(text, ":")) {
        value = substr(text, index(text, ":") + 1)
        if (keyword ~ /TYPE$|FORMAT$/)
            value = toupper(value)
        value = " :" value
    }
    put(keyword value)
    section = keyword ~ /SECTION$/ ? keyword : ""
    inside = keyword == "DEPOT_SECTION"
    count = 0
    over = keyword == "EOF"
    next
}
text ~ /^[ \t]*[A-Za-z]/ { # an unknown keyword ends the section, and stays
    if (inside)
        put_depot()
    section = ""
    put(text)
    next
}
{
    ends = tolower($NF) == "eof" && text ~ /^[ \t]*[-+.0-9]/
    if (ends)
        sub(/[ \t]*[Ee][Oo][Ff][ \t]*$/, "", text)
    words = split(text, word)
    if (section == "NODE_COORD_SECTION" && words > 2) {
        name[++nodes] = word[1]
        x[nodes] = word[2] + 0
        y[nodes] = word[3] + 0
    }
    if (inside) {
        at = at ? at : NR
        for (k = 1; k <= words && inside; k++)
            if (word[k] + 0 == -1)
                put_depot()
            else
                depot[++count] = word[k]
    } else if (section != "DEPOT_SECTION" && words)
        put(text)
    if (ends) {
        if (inside)
            put_depot()
        put("EOF")
        over = 1
    }
}
END {
    if (status)
        exit status
    if (inside)
        put_depot()
    if (status)
        exit status
    for (k = 1; k <= lines; k++)
        print out[k]
}
