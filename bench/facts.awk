# Prints a source whose one function has so many `int` locals (`-v variables=N`; 190 where it isn't given), of which two
# conditions tell how far each is from the next one, so that something is known of each two of them, and so many statements
# behind these conditions (`-v statements=N`; 1,000 where it isn't given): one in three adds to a local, one forgets what is
# known of a local and links it again, and one is an `if` that compares two and assigns a pointer, which counts over one of
# the last ten locals, another one, whose bounds are enough by the conditions.
function draw(below) {
    seed = (seed * 16807) % 2147483647
    return int(seed / 2147483647 * below)
}

function statement(kind, at, to) {
    at = draw(variables - 11)
    to = draw(9)
    if (kind == 0) return "v" at " += " draw(3) - 1 ";"
    if (kind == 1) return "v" at " = v" (at + 1) " + " draw(9) ";"
    return "if (v" at " + 1 <= v" (at + 1) ") p" to " = p" (to + 1 + draw(9 - to)) ";"
}

# What is known of each local and the next one, once this way and once the other.
function condition(ways, n, text) {
    for (n = 0; n + 1 < variables; n++) {
        text = text (n ? " && " : "") (ways ? "v" (n + 1) " <= v" n " + 9" : "v" n " <= v" (n + 1))
    }
    return text
}

BEGIN {
    seed = 1
    if (variables == "") variables = 190
    if (statements == "") statements = 1000
    print "int main(void) {"
    for (n = 0; n < variables; n++) print "    int v" n " = next_input();"
    for (n = 0; n < 10; n++) print "    array_ptr<int> p" n " : count(v" (variables - 10 + n) ") = NULL;"
    print "    if (" condition(0) ") {"
    print "        if (" condition(1) ") {"
    for (n = 0; n < statements; n++) print "            " statement(n % 3)
    print "        }"
    print "    }"
    print "    return 0;"
    print "}"
}
