package cache;

/** Remembers the rate that was looked up last, one for all caches of the program. */
@RegionLock("CacheLock is class protects Static")
public class RateCache {
  private static boolean filled;
  private static int currency;
  private static int rate;
  private static int misses;
  private final RateSource source;

  public RateCache(RateSource source) { this.source = source; }

  /** The rate of a currency. The look-up isn't made under the lock, since it may take long. */
  public int rateOf(int wanted) {
    synchronized (RateCache.class) {
      if (has(wanted)) { return rate; }
    }
    int fresh = source.lookUp(wanted);
    remember(wanted, fresh);
    return fresh;
  }

  /** Forgets the rate, so that the next one is looked up. */
  public synchronized void forget() { filled = false; }

  public static synchronized int misses() { return misses; }

  @RequiresLock("RateCache:CacheLock") private static boolean has(int wanted) {
    return filled && currency == wanted;
  }

  private static synchronized void remember(int wanted, int fresh) {
    filled = true;
    currency = wanted;
    rate = fresh;
    misses++;
  }
}
