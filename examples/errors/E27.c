struct a { int x; };
struct b { struct a y; };
int main(void) { return 0; }
