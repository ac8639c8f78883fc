package shop;

public class Till extends Desk {
    public int fee(int price) {
        int amount = 2;
        return amount;
    }
}
