package shop;

public class Cart {
    private int count;

    public void add(int amount, int times) {
        count += amount * times;
    }

    public int total() {
        return count;
    }
}
