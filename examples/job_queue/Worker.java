package jobs;
public class Worker implements Runnable {
  private final JobQueue queue;
  private final Stats stats;
  public Worker(JobQueue q, Stats s) { this.queue = q; this.stats = s; }
  @Override public void run() {
    int job = queue.poll();
    while (job != -1) { stats.add(); job = queue.poll(); }
  }
}
