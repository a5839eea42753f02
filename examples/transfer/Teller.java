package bank;

/** Moves one coin at a time from one account to another. */
public class Teller implements Runnable {
  private final Transfers transfers;
  private final Account from;
  private final Account to;

  public Teller(Transfers transfers, Account from, Account to) {
    this.transfers = transfers;
    this.from = from;
    this.to = to;
  }

  @Override public void run() {
    int moved = 0;
    while (moved < 500 && transfers.transfer(from, to, 1)) { moved++; }
  }
}
