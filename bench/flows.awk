# Prints a source whose one function has 190 `int` locals, 60 `array_ptr<int>` locals that count over 60 of these, and so many
# statements behind their declarations (`-v statements=N`; 2,000 where it isn't given): a third of them assign a number, a
# third are an `if` whose condition has two comparisons, and a third assign the pointer that this condition speaks of.
function draw(below) {
    seed = (seed * 16807) % 2147483647
    return int(seed / 2147483647 * below)
}

# A number that no bounds name.
function free_number() {
    return "i" (60 + draw(130))
}

function assign_number(kind, at) {
    kind = draw(4)
    at = draw(60)
    if (kind == 0) return "i" at " = i" at " - 1;"
    if (kind == 1) return free_number() " = next_input();"
    return free_number() " = i" draw(190) " + " draw(100) ";"
}

# Two comparisons, from which the bounds of the second pointer are enough for the first one.
function assign_pointer(to, from, between) {
    to = draw(60)
    from = draw(60)
    between = free_number()
    if (draw(2)) return "if (i" to " <= " between " && " between " <= i" from ") p" to " = p" from ";"
    return "if (i" to " <= i" from " && " between " < " free_number() ") p" to " = p" from ";"
}

BEGIN {
    seed = 1
    if (statements == "") statements = 2000
    print "int main(void) {"
    for (n = 0; n < 190; n++) {
        print "    int i" n " = " (n % 2 ? "next_input()" : n) ";"
    }
    for (n = 0; n < 60; n++) {
        print "    array_ptr<int> p" n " : count(i" n ") = NULL;"
    }
    for (n = 0; n < statements; n++) {
        if (n % 3 == 0) print "    " assign_number()
        else if (n % 3 == 1 && n + 1 < statements) print "    " assign_pointer()
        else if (n % 3 == 1) print "    if (i0 < i1 && i2 < i3) ;"
    }
    print "    return 0;"
    print "}"
}
