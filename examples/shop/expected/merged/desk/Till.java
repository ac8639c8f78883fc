package desk;

import shop.Basket;

public class Till {
    private Basket cart = new Basket();

    public int pay() {
        return cart.sum();
    }

    public int payLess(int discount) {
        cart.add(1, 5);
        return cart.sum() - discount;
    }
}
