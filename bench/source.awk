# Prints a source of some 1 MiB and 200,000 tokens, whose functions call one another and use structs and file-level
# variables.
BEGIN {
    print "struct pair { int first; int second; };"
    for (n = 0; n < 1000; n++) {
        printf "struct pair pair%d;\n", n
    }
    print "int f0(int a, int b) { return a - b; }"
    for (n = 1; n < 2200; n++) {
        printf "// Goes on from what two functions above make of the same numbers in either order, and keeps what comes out,\n"
        printf "// where it was there before, in a pair that some others use too.\n"
        printf "int f%d(int a, int b) {\n", n
        printf "    int sum = f%d(a, b) + f%d(b, a);\n", int(n / 2), int(n / 3)
        printf "    ptr<struct pair> at = &pair%d;\n", n % 1000
        printf "    while (sum < 100000 && a != b) {\n"
        printf "        sum = sum * 2 + a - b; // one step nearer\n"
        printf "    }\n"
        printf "    if (at->first == sum) at->second = f%d(sum, pair%d.first);\n", n - 1, (n * 7) % 1000
        printf "    return sum;\n}\n"
    }
    print "int main(void) { return 0; }"
}
