@RegionLock("L is this protects Instance")
class Account {
  int balance;
  synchronized void deposit() { balance += 1; }
  synchronized int get() { return balance; }
}
