package bank;

public class Main {
  public static void main(String[] args) {
    Account savings = new Account(1);
    Account current = new Account(2);
    savings.deposit(1000);
    current.deposit(1000);
    Transfers transfers = new Transfers();
    new Thread(new Teller(transfers, savings, current)).start();
    new Thread(new Teller(transfers, current, savings)).start();
  }
}
