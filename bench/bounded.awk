# Prints a source of some 1 MiB and 198,000 tokens, each of whose functions has pointers with bounds: parameters, locals and
# results (`-v pairs=N` for another number of pairs of functions than 770).
BEGIN {
    if (pairs == "") pairs = 770
    print "array_ptr<int> part0(array_ptr<int> p : count(n), int n, int m) : count(m) { return NULL; }"
    print "int sum0(array_ptr<int> p : count(n), int n, array_ptr<int> q : count(m), int m) { return n - m; }"
    for (k = 1; k < pairs; k++) {
        printf "// The first m of the n numbers behind p, where there are so many of them, and else what another function finds that\n"
        printf "// looks for one number less among all but the first one. What that one finds begins one place further on, so\n"
        printf "// its first number is shown, and nothing is given back.\n"
        printf "array_ptr<int> part%d(array_ptr<int> p : count(n), int n, int m) : count(m) {\n", k
        printf "    if (m <= n) return p;\n"
        printf "    array_ptr<int> behind : count(n - 1) = p + 1;\n"
        printf "    array_ptr<int> found : count(m - 1) = part%d(behind, n - 1, m - 1);\n", int(k / 2)
        printf "    if (found) print_int(found[0]);\n"
        printf "    return NULL;\n}\n"
        printf "// The sum of the numbers behind p, to which those behind q are added one by one while these are fewer, and the last\n"
        printf "// one of each: a pointer goes from the first number to the last one, and never leaves them. Where the numbers behind q\n"
        printf "// are no more than those behind p, two other functions sum up parts of what there is.\n"
        printf "int sum%d(array_ptr<int> p : count(n), int n, array_ptr<int> q : count(m), int m) {\n", k
        printf "    int sum = 0;\n"
        printf "    for (array_ptr<int> at : bounds(p, p + n) = p; at < p + n; at++) sum += *at; // from the first one on\n"
        printf "    while (m < n && 0 < m) {\n"
        printf "        sum = sum * 2 + p[m - 1] - q[m - 1];\n"
        printf "        m--;\n"
        printf "    }\n"
        printf "    if (m <= n) {\n"
        printf "        array_ptr<int> row : count(m) = part%d(p, n, m);\n", k
        printf "        return sum%d(row, m, q, m) + sum%d(p, n, p, m);\n", int(k / 2), int(k / 3)
        printf "    }\n"
        printf "    return sum;\n}\n"
    }
    print "int main(void) { return 0; }"
}
