package shop;

public class Basket {
    private int count;

    public void add(int times, int amount) {
        count += amount * times;
    }

    public int sum() {
        return count;
    }
}
