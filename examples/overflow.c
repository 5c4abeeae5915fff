int most = 2147483647;

int main(void) {
  return most - 1 + 2 - 1;
}
