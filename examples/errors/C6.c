int main(void) { int x = 2147483647; x = x + 1; return 0; }
