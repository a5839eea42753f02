package bank;

/** Moves money between two accounts. */
public class Transfers {
  /** Moves the amount where there is so much; the account of the smaller number is locked first. */
  public boolean transfer(Account from, Account to, int amount) {
    if (from.number() < to.number()) {
      synchronized (from) {
        synchronized (to) { return move(from, to, amount); }
      }
    }
    synchronized (to) {
      synchronized (from) { return move(from, to, amount); }
    }
  }

  @RequiresLock("from:AccountLock, to:AccountLock")
  private boolean move(Account from, Account to, int amount) {
    if (from.balance() < amount) { return false; }
    from.add(-amount);
    to.add(amount);
    return true;
  }
}
