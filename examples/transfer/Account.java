package bank;

/** An account. Whoever reads or changes its balance holds the account's own monitor. */
@RegionLock("AccountLock is this protects Instance")
public class Account {
  private final int number;
  private int balance;

  public Account(int number) { this.number = number; }

  public int number() { return number; }

  public synchronized void deposit(int amount) { add(amount); }

  @RequiresLock("AccountLock") int balance() { return balance; }

  @RequiresLock("AccountLock") void add(int amount) { balance += amount; }
}
