int main(void) { ptr<int> p = 1; return 0; }
