# What ./chart asks the console, and the page made of the answers.
#
#     part         calls: the calls go to standard output, one a line
#                  page: standard input has the answers, one a line; the page goes to standard output
#     degree       the table's degree
#     opened       what the console answered when the table was first opened
#     direction    X Y Z, or nothing
#
# In the environment: chart_table, the file that the console opens; chart_source, what the user calls it; chart_page,
# the page without its data; chart_failed, a file for the words where there is to be no page. The status is then 1 where
# the direction is refused, 2 where it cannot be read, 4 where an answer is not as it should be.
#
# Triangles are numbered from 0 in the order of their codes, corners from 0 in the order in which they are met. A list
# with three numbers for each triangle has those of triangle t at 3*t+1 to 3*t+3.

BEGIN {
    list_codes()
    if (part == "calls") write_calls()
    else {
        read_answers()
        check_answers()
        write_page()
    }
}

# ---- the calls

# The codes of the degree in rising order. Each gives way to its four children, the last one first.
function list_codes(    a, p, q, n, t, digit) {
    triangles = 0
    for (a = 1; a <= 5; a++) for (p = 0; p <= 1; p++) for (q = 0; q <= 1; q++) code[triangles++] = a p q
    for (n = 0; n < degree; n++) {
        for (t = triangles - 1; t >= 0; t--) for (digit = 3; digit >= 0; digit--) code[4 * t + digit] = code[t] digit
        triangles *= 4
    }
    if (part == "page") for (t = 0; t < triangles; t++) number[code[t]] = t
}

function write_calls(    t, c, k) {
    print "open " ENVIRON["chart_table"]
    print "owners"
    if (direction != "") {
        print "file " degree " " direction
        print "list " degree " " direction
    }
    for (t = 0; t < triangles; t++) {
        c = code[t]
        print "mark " c
        print "get " c
        for (k = 1; k <= 3; k++) print "edge-mark " c " " k
        for (k = 1; k <= 3; k++) print "name " c " " k
        for (k = 1; k <= 3; k++) print "cross " c " " k
    }
}

# ---- the answers

# Ends without a page. What the console still has to say is read, so that it does not fail too.
function fail(status, words,    rest) {
    print words >ENVIRON["chart_failed"]
    close(ENVIRON["chart_failed"])
    while ((getline rest) > 0);
    exit status
}

function unexpected(call, text) { fail(4, "the console answers " call " by '" text "', which is not as it should be") }
function differ(what) { fail(4, "the console's answers do not agree: " what) }

function answer(call,    text) {
    if ((getline text) <= 0) fail(4, "the console has not answered " call)
    calls++
    return text
}

function read_answers(    t, rest) {
    calls = corners = 0
    opened_again = answer("open")
    if (opened_again != opened) unexpected("open", opened_again)
    if (opened != "degree " degree ", " triangles " places") unexpected("open", opened)
    read_owners()
    if (direction != "") read_direction()
    for (t = 0; t < triangles; t++) {
        read_mark(t)
        read_reading(t)
        read_edges(t)
        read_names(t)
        read_neighbours(t)
    }
    if ((getline rest) > 0) fail(4, "the console answers more than it is asked: '" rest "'")
}

# Each `CODE desk DESK`; what is not told is nobody's.
function read_owners(    text, n, k, parts, words) {
    text = answer("owners")
    n = 0
    if (index(text, ": ")) n = split(substr(text, index(text, ": ") + 2), parts, /, /)
    if (text !~ /^[0-9]+ owned(: .*)?$/ || text + 0 != n) unexpected("owners", substr(text, 1, 200))
    for (k = 1; k <= n; k++) {
        if (split(parts[k], words, " ") != 3 || !(words[1] in number) || number[words[1]] in owner ||
            parts[k] !~ / desk [12]$/) unexpected("owners", parts[k])
        owner[number[words[1]]] = words[3]
    }
}

# The first holder is the least, and so the one that the direction is filed in.
function read_direction(    text, k) {
    filed = answer("file")
    text = answer("list")
    if (filed ~ /^refused /) fail(1, "the direction " direction " is refused by the console: " filed)
    if (filed ~ /^error: /) fail(2, "the direction " direction " cannot be read by the console: " filed)
    if (text !~ /^[1-6]: ./) unexpected("list", text)
    holders = split(substr(text, 4), holder, /, /)
    if (text + 0 != holders) unexpected("list", text)
    for (k = 1; k <= holders; k++) know_word(holder[k], "list")
    if (holder[1] != filed) differ("the direction is filed in " filed " and the first holder is " holder[1])
}

# A code as the console shows it, `CODE WORD`, of a triangle of the table: its number. A triangle has one word.
function know_word(text, call,    words, t) {
    if (split(text, words, " ") != 2 || !(words[1] in number) || !is_word(words[2])) unexpected(call, text)
    t = number[words[1]]
    if (!(t in word)) word[t] = words[2]
    if (word[t] != words[2]) differ(words[1] " is " word[t] " and " words[2])
    return t
}

function is_word(text) { return text ~ /^0x[0-9A-F]+$/ && length(text) == 18 }
function is_decimal(text) { return text ~ /^-?[0-9]+(\.[0-9]+)?$/ }

# The point that is written from this place on, as `x D y D z D`: its three decimals, or nothing where there is none.
function point_at(words, k) {
    if (words[k] != "x" || words[k + 2] != "y" || words[k + 4] != "z") return ""
    if (!is_decimal(words[k + 1]) || !is_decimal(words[k + 3]) || !is_decimal(words[k + 5])) return ""
    return words[k + 1] " " words[k + 3] " " words[k + 5]
}

function read_mark(t,    text, words) {
    text = answer("mark " code[t])
    dot = ""
    if (text == "nothing") return
    if (split(text, words, " ") == 7 && words[1] == "dot") dot = point_at(words, 2)
    if (dot == "") unexpected("mark " code[t], text)
}

# A dot shows a reading, and nothing shows none.
function read_reading(t,    text) {
    text = answer("get " code[t])
    if (text == "no reading") reading[t] = "-"
    else if (text ~ /^[0-9]+ mm$/ && text + 0 <= 100000) reading[t] = substr(text, 1, length(text) - 3)
    else unexpected("get " code[t], text)
    if ((dot == "") != (reading[t] == "-")) differ("of " code[t] " the mark is " (dot == "" ? "nothing" : "a dot") \
        " and the reading is '" text "'")
}

# Edge k lies opposite corner k, and its segment goes from the lower corner to the higher: each corner is told twice.
function read_edges(t,    k, text, words) {
    for (k = 1; k <= 3; k++) {
        text = answer("edge-mark " code[t] " " k)
        if (split(text, words, " ") != 14 || words[1] != "segment" || words[8] != "to")
            unexpected("edge-mark " code[t] " " k, text)
        from[k] = point_at(words, 2)
        to[k] = point_at(words, 9)
        if (from[k] == "" || to[k] == "") unexpected("edge-mark " code[t] " " k, text)
    }
    if (from[2] != from[3]) differ("corner 1 of " code[t] " is drawn at " from[2] " by edge 2 and at " from[3] " by 3")
    if (from[1] != to[3]) differ("corner 2 of " code[t] " is drawn at " from[1] " by edge 1 and at " to[3] " by 3")
    if (to[1] != to[2]) differ("corner 3 of " code[t] " is drawn at " to[1] " by edge 1 and at " to[2] " by 2")
    if (dot != "" && dot != from[2]) differ("the dot of " code[t] " is at " dot " and its corner 1 at " from[2])
}

function read_names(t,    k, text, words, at) {
    for (k = 1; k <= 3; k++) {
        text = answer("name " code[t] " " k)
        if (split(text, words, " ") != 5 || !is_word(words[1]) || words[2] != "corner" || words[3] !~ /^[123]$/ ||
            words[4] != "of" || !(words[5] in number)) unexpected("name " code[t] " " k, text)
        at = k == 1 ? from[2] : k == 2 ? from[1] : to[1]
        corner[3 * t + k] = know_corner(words[1], at)
        if (words[5] == code[t]) own_name(t, words[1], words[3], k)
    }
}

# The number of the corner by this name. A corner has one point, from whichever triangle it is told.
function know_corner(name, at,    c) {
    if (!(name in named)) {
        named[name] = corners
        corner_name[corners] = name
        corner_at[corners++] = at
    }
    c = named[name]
    if (corner_at[c] != at) differ("the corner " name " is drawn at " corner_at[c] " and at " at)
    return c
}

# The triangle inside a name has that corner, by the number that the name ends with.
function own_name(t, name, told, k) {
    if (told != k || substr(name, 18) != k)
        differ("corner " k " of " code[t] " is named " name ", corner " told " of it")
    own[named[name]] = t
}

function read_neighbours(t,    k, text, words) {
    for (k = 1; k <= 3; k++) {
        text = answer("cross " code[t] " " k)
        if (split(text, words, " ") != 7 || words[3] != "edge" || words[4] !~ /^[123]$/ || words[5] != "corners" ||
            words[6] !~ /^[123]$/ || words[7] !~ /^[123]$/) unexpected("cross " code[t] " " k, text)
        neighbour[3 * t + k] = know_word(words[1] " " words[2], "cross " code[t] " " k)
        edge[3 * t + k] = words[4]
        lower[3 * t + k] = words[6]
        higher[3 * t + k] = words[7]
    }
}

# ---- what must agree when all is known

function check_answers(    t, k, c) {
    for (t = 0; t < triangles; t++) for (k = 1; k <= 3; k++) check_step(t, k)
    if (corners != triangles / 2 + 2) differ("there are " corners " corners in " triangles " triangles")
    for (c = 0; c < corners; c++) {
        if (!(c in own)) differ("no triangle has the name " corner_name[c] " of its own")
        if (substr(corner_name[c], 1, 17) != substr(word[own[c]], 1, 17))
            differ("the name " corner_name[c] " is a corner of " code[own[c]] " " word[own[c]])
    }
}

# Across an edge lies another triangle, the step back returns, and both have the edge's two corners.
function check_step(t, k,    other, there) {
    other = 3 * neighbour[3 * t + k]
    there = edge[3 * t + k]
    if (other == 3 * t || neighbour[other + there] != t || edge[other + there] != k)
        differ("from " code[t] " over edge " k " the step back does not return")
    if (corner[3 * t + (k == 1 ? 2 : 1)] != corner[other + lower[3 * t + k]] ||
        corner[3 * t + (k == 3 ? 2 : 3)] != corner[other + higher[3 * t + k]])
        differ("from " code[t] " over edge " k " the corners are others")
}

# ---- the page

function write_page(    line, data, got) {
    data = 0
    while ((got = (getline line <ENVIRON["chart_page"])) > 0) {
        print line
        if (line == "<script type=\"text/plain\" id=\"table\">") {
            write_data()
            data++
        }
    }
    if (got < 0 || data != 1) fail(4, "scripts/chart.html is not a page with one place for the table")
}

function write_data(    k, c, t) {
    print "source " plain(ENVIRON["chart_source"])
    print "degree " degree
    print "calls " calls ": open 1, owners 1, " (direction == "" ? "" : "file 1, list 1, ") "mark " triangles ", get " \
        triangles ", edge-mark " 3 * triangles ", name " 3 * triangles ", cross " 3 * triangles
    if (direction != "") {
        print "direction " direction
        print "filed " filed
        print "holders " holders
        for (k = 1; k <= holders; k++) print holder[k]
    }
    print "corners " corners
    for (c = 0; c < corners; c++) print corner_name[c] " " corner_at[c]
    print "triangles " triangles
    for (t = 0; t < triangles; t++) print code[t] " " word[t] " " (t in owner ? owner[t] : 0) " " reading[t] " " \
        corner[3 * t + 1] " " corner[3 * t + 2] " " corner[3 * t + 3] " " step(3 * t + 1) " " step(3 * t + 2) " " \
        step(3 * t + 3)
    print "end"
}

function step(place) { return neighbour[place] "." edge[place] }

# A name of a file in letters that mean nothing in a page: any other byte as % and two hexadecimal digits.
function plain(text,    k, letter, byte, shown) {
    for (k = 1; k < 256; k++) byte[sprintf("%c", k)] = k
    shown = ""
    for (k = 1; k <= length(text); k++) {
        letter = substr(text, k, 1)
        shown = shown (letter ~ /^[A-Za-z0-9 .,:;_+=@~\/()-]$/ ? letter : sprintf("%%%02X", byte[letter]))
    }
    return shown
}
