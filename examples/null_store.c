int g = 1;

int main(void) {
  ptr<int> p = 0;
  *p = g + 1;
  return g;
}
