package bank;

/** Moves money between two accounts. */
public class Transfers {
  /** Moves the amount where there is so much, under the lock of the account that it is taken from. */
  public boolean transfer(Account from, Account to, int amount) {
    synchronized (from) { return move(from, to, amount); }
  }

  @RequiresLock("from:AccountLock, to:AccountLock")
  private boolean move(Account from, Account to, int amount) {
    if (from.balance() < amount) { return false; }
    from.add(-amount);
    to.add(amount);
    return true;
  }
}
