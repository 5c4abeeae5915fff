_Tainted char t(void);
int main(void) { return t(); }
