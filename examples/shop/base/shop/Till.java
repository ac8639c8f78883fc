package shop;

public class Till {
    private Cart cart = new Cart();

    public int pay() {
        return cart.total();
    }

    public int payLess(int discount) {
        return 0;
    }
}
