// Packets in a row of bytes. A packet begins with how many bytes follow in it, and the sum of these is printed. The input has
// how many bytes there are in all, and then these.

// Reads n bytes, or gives null where there is no room for them.
array_ptr<char> read_bytes(int n) : count(n) {
  array_ptr<char> bytes : count(n) = malloc<char>(n);
  if (!bytes) return NULL;
  for (int k = 0; k < n; k++) bytes[k] = next_input();
  return bytes;
}

int sum(array_ptr<char> bytes : count(n), int n) {
  int s = 0;
  for (int k = 0; k < n; k++) s += bytes[k];
  return s;
}

int main(void) {
  int n = next_input();
  array_ptr<char> bytes : count(n) = read_bytes(n);
  if (!bytes) return -1;
  array_ptr<char> p : bounds(bytes, bytes + n) = bytes;
  int packets = 0;
  while (p < bytes + n) {
    int length = *p;
    // A packet that claims more than is there ends the run here.
    array_ptr<char> packet : count(length) = _Dynamic_bounds_cast<array_ptr<char>>(p + 1, count(length));
    print_int(sum(packet, length));
    p += length + 1;
    packets++;
  }
  return packets;
}
