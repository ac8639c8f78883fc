package shop;

public class Desk {
    public int fee(int amount) {
        return amount;
    }
}
