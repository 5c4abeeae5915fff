_Tainted int index(int length);

int length = 5;
int last = 2147483647;

int main(void) {
  ptr<int> p = &last;
  return index(length) + *p;
}
