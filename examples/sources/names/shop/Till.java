package shop;

public class Till extends Desk {
    public int pay(int amount) {
        return count + amounts;
    }
}
