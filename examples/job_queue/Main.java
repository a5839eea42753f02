package jobs;
public class Main {
  public static void main(String[] args) {
    JobQueue q = new JobQueue();
    Stats s = new Stats();
    for (int i = 0; i < 4; i++) { q.offer(i); }
    new Thread(new Worker(q, s)).start();
    new Thread(new Worker(q, s)).start();
    new Thread(new Worker(q, s)).start();
  }
}
