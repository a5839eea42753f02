package buffer;

/** Hands at most three items at a time from producers to consumers, in their order. */
@Region("Slots")
@RegionLock("SlotsLock is lock protects Slots")
public class BoundedBuffer {
  private final Object lock = new Object();
  @InRegion("Slots") private int first;
  @InRegion("Slots") private int second;
  @InRegion("Slots") private int third;
  @InRegion("Slots") private int count;

  /** Puts an item behind the others; false where there is no room for it. */
  public boolean offer(int item) {
    synchronized (lock) {
      if (isFull()) { return false; }
      if (count == 0) {
        first = item;
      } else if (count == 1) {
        second = item;
      } else {
        third = item;
      }
      count++;
      return true;
    }
  }

  /** Takes the first item; answers `none` where there isn't any. */
  public int poll(int none) {
    synchronized (lock) {
      if (count == 0) { return none; }
      return takeFirst();
    }
  }

  @RequiresLock("SlotsLock") private boolean isFull() { return count == 3; }

  @RequiresLock("SlotsLock") private int takeFirst() {
    int item = first;
    first = second;
    second = third;
    count--;
    return item;
  }
}
