package jobs;
@RegionLock("StatsLock is this protects Instance")
public class Stats {
  private int done;
  public synchronized void add() { done++; }
  public synchronized int total() { return done; }
}
