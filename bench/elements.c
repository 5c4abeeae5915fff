// A loop that stores to an element of an array and reads from the next one, in half of the turns that the budget allows.
int a _Checked[1000];

int main(void) {
    int i = 0;
    int k = 0;
    int s = 0;
    while (i < 5000000) {
        a[k] = s + i;
        k++;
        if (k == 1000) k = 0;
        s = (s + a[k]) % 1000;
        i++;
    }
    print_int(s);
    return 0;
}
