package buffer;

/** Takes items from a buffer until so many were taken by all consumers together. */
public class Consumer implements Runnable {
  private final BoundedBuffer buffer;
  private final Total total;
  private final int wanted;

  public Consumer(BoundedBuffer buffer, Total total, int wanted) {
    this.buffer = buffer;
    this.total = total;
    this.wanted = wanted;
  }

  @Override public void run() {
    while (total.items() < wanted) {
      int item = buffer.poll(-1);
      if (item != -1) { total.add(item); }
    }
  }
}
