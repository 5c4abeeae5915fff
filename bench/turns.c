// A loop that adds, takes a remainder and compares, in a few turns less than the budget allows.
int main(void) {
    int i = 0;
    int s = 0;
    int t = 0;
    while (i < 9999998) {
        s = (s + i) % 7;
        if (s > 3) t++;
        i++;
    }
    print_int(t);
    return 0;
}
