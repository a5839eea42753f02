package jobs;
@Region("Slots")
@RegionLock("QueueLock is lock protects Slots")
public class JobQueue {
  private final Object lock = new Object();
  @InRegion("Slots") private int count;
  @Unique @InRegion("Slots") private Ring ring;
  @Unique("return") public JobQueue() { ring = new Ring(); }
  public boolean offer(int job) {
    synchronized (lock) {
      if (count < 4) { ring.put(job); count++; return true; }
      return false;
    }
  }
  public int poll() { synchronized (lock) { return take(); } }
  @RequiresLock("QueueLock") private int take() {
    if (count == 0) { return -1; }
    count--;
    return ring.get();
  }
}
