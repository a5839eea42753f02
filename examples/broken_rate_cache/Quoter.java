package cache;

/** Asks for the rate of one currency again and again. */
public class Quoter implements Runnable {
  private final RateCache cache;
  private final int currency;

  public Quoter(RateCache cache, int currency) {
    this.cache = cache;
    this.currency = currency;
  }

  @Override public void run() {
    int sum = 0;
    for (int i = 0; i < 1000; i++) { sum += cache.rateOf(currency); }
    if (sum == 0) { cache.forget(); }
  }
}
