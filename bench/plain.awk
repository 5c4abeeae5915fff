# Prints a source of plain C of so many functions (`-v functions=3999` makes 1,048,170 bytes and 199,950 tokens): 262 bytes and 50
# tokens for each, and behind each thousand a comment of 144 bytes.
BEGIN {
    for (n = 0; n < functions; n++) {
        printf "int f%05d(int first, int second) {\n", n
        printf "    int total = first * 3 + second; // what both make\n"
        printf "    while (total < 100000) {\n"
        printf "        total = total + first - second; // one step nearer\n"
        printf "    }\n"
        printf "    if (total == second) total += 1; // never the second\n"
        printf "    return -total;\n}\n"
        if (n % 1000 == 999) {
            printf "// A thousand functions stand above this line. They differ in their names alone, and none of them is called, "
            printf "neither by another, nor from main.\n"
        }
    }
}
