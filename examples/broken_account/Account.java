@RegionLock("L is this protects Instance")
class Account {
  int n;
  synchronized void deposit() { n += 1; }
  int get() { return n; }
}
