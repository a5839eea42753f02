package cache;

public class Main {
  public static void main(String[] args) {
    RateSource source = new TableSource();
    RateCache morning = new RateCache(source);
    RateCache evening = new RateCache(source);
    new Thread(new Quoter(morning, 1)).start();
    new Thread(new Quoter(evening, 2)).start();
  }
}
