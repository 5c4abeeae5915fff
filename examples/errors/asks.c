_Tainted int t(void);
int main(void) { return t(); }
