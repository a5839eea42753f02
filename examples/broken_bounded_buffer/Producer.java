package buffer;

/** Puts the numbers from 1 up to a last one into a buffer. */
public class Producer implements Runnable {
  private final BoundedBuffer buffer;
  private final int last;

  public Producer(BoundedBuffer buffer, int last) {
    this.buffer = buffer;
    this.last = last;
  }

  @Override public void run() {
    int next = 1;
    while (next <= last) {
      if (buffer.offer(next)) { next++; }
    }
  }
}
