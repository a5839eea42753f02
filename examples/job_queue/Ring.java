package jobs;
@Promise("@Borrowed(this) for *(**)")
@Promise("@Borrowed(this) for new(**)")
public class Ring {
  private int a;
  private int b;
  public Ring() { }
  public void put(int v) { b = a; a = v; }
  public int get() { return a; }
}
