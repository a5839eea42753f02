package buffer;

/** What all consumers took, added up. */
@RegionLock("TotalLock is this protects Instance")
public class Total {
  private int sum;
  private int items;

  public synchronized void add(int item) {
    sum += item;
    items++;
  }

  public synchronized int items() { return items; }

  public synchronized int sum() { return sum; }
}
