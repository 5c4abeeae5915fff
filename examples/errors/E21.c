int g;
int main(void) { _Bundled { g = 1; } return g; }
