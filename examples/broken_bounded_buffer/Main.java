package buffer;

public class Main {
  public static void main(String[] args) {
    BoundedBuffer buffer = new BoundedBuffer();
    Total total = new Total();
    new Thread(new Producer(buffer, 100)).start();
    new Thread(new Producer(buffer, 100)).start();
    new Thread(new Consumer(buffer, total, 200)).start();
    new Thread(new Consumer(buffer, total, 200)).start();
  }
}
