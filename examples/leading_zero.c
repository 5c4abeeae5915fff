// In C this would be an octal number.
int x = 08;

int main(void) { return x; }
